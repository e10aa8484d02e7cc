// 11 lines 6 code 4 comments 1 blanks
/* a block
   of two lines */

#include <stdio.h>
int main(void) {
    puts("// no comment, /* nor this */"); /* said once */
    return 0;
}
char mark = '"';
// a comment, since the mark opens no string
