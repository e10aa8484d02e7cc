// 7 lines 3 code 3 comments 1 blanks
/* a block /* in a block */
   and its end */

method Twice(x: int) returns (y: int)
  ensures y == 2 * x // no more
{ y := 2 * x; print "/* no comment"; }
