// 7 lines 4 code 2 comments 1 blanks
// for people who read

func.func @one() -> i32 { // once
  %0 = arith.constant 1 : i32
  return %0 : i32
}
