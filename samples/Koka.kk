// 11 lines 5 code 5 comments 1 blanks
/* a block /* in a block */
   and its end */

fun main() {
  println("/* no comment") // said once
}
val path = r"C:\"
// a
val raw = r#"a " /* b"#
// b
