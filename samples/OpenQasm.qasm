// 8 lines 4 code 3 comments 1 blanks
/* a block
   of two lines */

OPENQASM 3;
include "stdgates.inc";
qubit q; // one
h q;
