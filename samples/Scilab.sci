// 10 lines 5 code 4 comments 1 blanks
/* a block
   of two lines */

function y = twice(x)
  disp("// no comment"); // said once
  y = 2 * x;
endfunction
mark = '"';
// a
