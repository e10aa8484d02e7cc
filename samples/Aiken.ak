// 7 lines 3 code 3 comments 1 blanks
//// A module
/// for people who read

pub fn name() -> ByteArray {
  "// none" // once
}
