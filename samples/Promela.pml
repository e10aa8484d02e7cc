// 9 lines 4 code 4 comments 1 blanks
/* a block
   of two lines */

active proctype greeter() {
    printf("// no comment\n"); // said once
}
byte mark = '"';
// a
