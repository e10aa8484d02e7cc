// 11 lines 6 code 4 comments 1 blanks
/* a block
   of two lines */

export module shapes;
export constexpr char mark[] = "// none";
export double area(double side) { return side * side; }
const char *raw = R"json(
// a )" b
)json";
// a
