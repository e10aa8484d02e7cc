// 12 lines 5 code 6 comments 1 blanks
/* a block /* in a block */
   and its end */

import std::io;
fn void main() {
    io::printn("/* no comment"); // said once
}
char tick = '`';
// a
<* a page
   of two lines *>
