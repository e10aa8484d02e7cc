// 9 lines 5 code 3 comments 1 blanks
/* a block
   of two lines */

package org.example;
interface IGreeter {
    const String MARK = "//"; // no comment
    void greet();
}
