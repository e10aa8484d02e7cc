// 9 lines 5 code 3 comments 1 blanks
/* a block
   of two lines */

module mkGreeter(Empty);
  rule greet;
    $display("// no comment"); // each cycle
  endrule
endmodule
