// 17 lines 12 code 4 comments 1 blanks
/* a block /* in a block */
   and its end */

let raw = #"a "quoted" // text \"#
func greet() {
    print("/* no comment", raw) // said once
}
greet()
let text = """
  a " mark
  // code, since the text goes on
  """
let raw = #"""
  /* a "#
  """#
// a
