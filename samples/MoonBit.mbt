// 8 lines 4 code 3 comments 1 blanks
// for people who read

fn main {
  println("// none") // once
}
let mark = '"'
// a
