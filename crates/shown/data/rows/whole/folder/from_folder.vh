initial $display("included");
