"""Sources that the parts run."""

# A swap by nonblocking assignments: it has one complete journal, of eight entries.
SWAP = b'module t; reg a, b; initial begin a=1\'b0; b=1\'b1; #1 a<=b; b<=a; #1 $display("%b %b",a,b); end endmodule\n'
SWAP_LINES = b"1 0\n"

# A register goes down and up again in one turn, and what waits for it wakes.
GLITCH = b'module t; reg a; initial begin a=1\'b1; #1 a=1\'b0; a=1\'b1; end initial #0 @(posedge a) $display("glitch"); endmodule\n'

# One process writes a register that another reads.
COPY = b'module t; reg a, b; initial a=1\'b1; initial b=a; initial #1 $display("%b",b); endmodule\n'

# Two processes write one register, and a third shows it.
TWO_WRITERS = b'module t; reg a; initial a=1\'b0; initial a=1\'b1; initial #0 $display("%b",a); endmodule\n'

# Strobes before and after an update.
STROBES = b'module t; reg a; initial begin a=1\'b0; $strobe("s %b",a); a<=1\'b1; #1 $strobe("t %b",a); end endmodule\n'

# Many processes, updates and lines, until $finish: journal, lines, deques and regions grow many times.
BUSY = (
    b"module t; reg [7:0] n; reg [31:0] s; reg c;"
    + b"".join(b" always @(posedge c) s<=s+32'd%d;" % it for it in range(70))
    + b" always @(negedge c) $display(\"%0d %h %b\",n,s,s);"
    + b" initial begin n=8'd0; s=32'd0; c=1'b0; while (n<8'd6) begin #1 c=~c; n=n+8'd1; end $finish; end endmodule\n"
)

# Turns without end, each of which takes long, so that a run of them takes little memory.
ENDLESS = b"module t; reg [11:0] n; always begin n=12'd0; while (n<12'd4000) begin n=n+12'd1; end #1 ; end endmodule\n"

# By name: a source, and the lines that any of its runs prints, where all print the same.
SMALL = {
    "swap": (SWAP, SWAP_LINES),
    "glitch": (GLITCH, None),
    "copy": (COPY, None),
    "two writers": (TWO_WRITERS, None),
}
