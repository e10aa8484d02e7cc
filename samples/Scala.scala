// 10 lines 5 code 4 comments 1 blanks
/* a block /* in a block */
   and its end */

object Greeter {
  val raw = """a "quoted" // text \"""
  def main(names: Array[String]): Unit = println("// no comment") // said once
}
val mark = '"'
// a comment, since the mark opens no string
