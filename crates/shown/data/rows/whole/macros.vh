`define VALUE 8'd200
