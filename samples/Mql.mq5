// 11 lines 6 code 4 comments 1 blanks
/* a block
   of two lines */

#property copyright "http://example.org"
int OnInit() {
   Print("/* no comment"); // said once
   return 0;
}
char mark = '"';
// a
