// 9 lines 5 code 3 comments 1 blanks
/* a block
   of two lines */

%token NUMBER
%%
sum: NUMBER '+' NUMBER { puts("// a sum"); } // of two
   ;
%%
