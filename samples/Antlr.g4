// 10 lines 5 code 4 comments 1 blanks
/* a block
   of two lines */

grammar Sums;
sum : NUMBER '+' NUMBER ; // of two
NUMBER : [0-9]+ ;
MARK : '//' ;
TEXT : ["'] ;
// a
