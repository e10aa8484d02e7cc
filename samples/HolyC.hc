// 8 lines 4 code 3 comments 1 blanks
/* a block
   of two lines */

U0 Main() {
  "// said, as all texts are\n"; // by standing there
}
Main;
