// 7 lines 3 code 3 comments 1 blanks
/* a block
   of two lines */

%module shapes
%include "shapes.h" // theirs
double area(double side);
