// 7 lines 3 code 3 comments 1 blanks
/* a block
   of two lines */

component Main {
  fun render : String { "a // name" } // of whom
}
