// 13 lines 8 code 4 comments 1 blanks
/* a block
   of two lines */

#pragma once
namespace shapes {
constexpr const char *mark = "/*";
double area(double side); // in square metres
}
const char *raw = R"json(
// a )" b
)json";
// a
