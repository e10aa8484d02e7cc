// 9 lines 5 code 3 comments 1 blanks
/* a block
   of two lines */

model Ball "// falls"
  Real height(start = 1); // in metres
equation
  der(height) = -1;
end Ball;
