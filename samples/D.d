// 18 lines 9 code 8 comments 1 blanks
/* a block */
/+ a block /+ in a block +/
   and its end +/

import std.stdio;
void main() {
    writeln("// none, /+ nor this"); // once
}
string raw = `a \ " mark`;
char mark = '"';
// a comment, since no string is open
char tick = '`';
// a
auto path = r"C:\";
// b
auto text = q"(a " b)";
// c
