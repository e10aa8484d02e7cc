// 8 lines 4 code 3 comments 1 blanks
/* a block
   of two lines */

`define WIDTH 4 // bits
module counter(input clk);
  initial $display("/* no comment");
endmodule
