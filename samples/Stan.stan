// 9 lines 4 code 4 comments 1 blanks
/* a block
   of two lines */

data { int<lower=0> n; } // how many
parameters { real mu; }
model { print("// no comment"); }
# as it was written before
#include a.stan
