initial begin
`include "two.vh"
end
