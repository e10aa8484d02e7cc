/* 9 lines 3 code 5 comments 1 blanks */
/* a block
   of two lines */

data names;
  name = '/* none'; /* of whom */
run;
* a;
%* b;
