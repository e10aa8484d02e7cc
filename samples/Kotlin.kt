// 11 lines 6 code 4 comments 1 blanks
/* a block /* in a block */
   and its end */

fun main() {
    val raw = """a "quoted" // text \"""
    println("/* no comment") // said once
    println(raw)
}
val mark = '"'
// a comment, since the mark opens no string
