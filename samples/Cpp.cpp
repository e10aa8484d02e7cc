// 15 lines 9 code 5 comments 1 blanks
/* a block
   of two lines */

#include <string>
std::string path() {
    auto raw = R"(a "quoted" // text \)";
    return "http://example.org/" + std::string(raw); // joined
}
char mark = '"';
// a comment, since the mark opens no string
const char *raw = R"json(
// a )" b
)json";
// a
