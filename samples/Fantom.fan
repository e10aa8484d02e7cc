// 9 lines 4 code 4 comments 1 blanks
** documentation of the class
/* a block */

class Greeter {
  Str mark := "// none" // a text
}
  Int mark := '"'
  // a
