$display("two");
