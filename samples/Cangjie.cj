// 14 lines 8 code 5 comments 1 blanks
/* a block /* in a block */
   and its end */

main(): Int64 {
    println("// no comment") // said once
    return 0
}
let raw = #"a " /* b"#
// a
let text = """
  /* "b
  """
// b
