// 8 lines 4 code 3 comments 1 blanks
/* a block /* in a block */
   and its end */

#include "colors.inc"
sphere { <0, 1, 2>, 2 // its radius
  texture { pigment { color Yellow } }
}
