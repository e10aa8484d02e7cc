// 9 lines 5 code 3 comments 1 blanks
// for people who read

const name = "a // name"; // of whom
pub fn main() void {}
const a =
    \\say "hi
;
// a
