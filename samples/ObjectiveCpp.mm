// 13 lines 8 code 4 comments 1 blanks
/* a block
   of two lines */

#include <string>
@interface Greeter : NSObject
- (std::string)mark; // a C++ string
@end
static std::string mark = "/* none */";
const char *raw = R"json(
// a )" b
)json";
// a
