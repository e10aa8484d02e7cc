// 8 lines 4 code 3 comments 1 blanks
/* a block
   of two lines */

#ifndef GREETING_H
#define GREETING "/* no comment */"
int greet(const char *name); // answers 0
#endif
