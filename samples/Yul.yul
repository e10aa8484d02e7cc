// 7 lines 3 code 3 comments 1 blanks
/* a block
   of two lines */

object "Greeter" {
    code { mstore(0, "// none") } // at 0
}
