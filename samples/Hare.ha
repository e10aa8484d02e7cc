// 8 lines 4 code 3 comments 1 blanks
// for people who read

export fn main() void = {
	fmt::println("// none")!; // once
};
let tick = '`';
// a
