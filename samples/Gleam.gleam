// 6 lines 3 code 2 comments 1 blanks
// for people who read

pub fn main() {
  io.println("// none") // once
}
