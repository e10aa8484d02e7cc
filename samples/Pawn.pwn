// 8 lines 4 code 3 comments 1 blanks
/* a block
   of two lines */

#include <a_samp>
main() {
    print("// no comment"); // said once
}
