% 7 lines 2 code 4 comments 1 blanks
% for people who read
/* a block
   of two lines */

var 1..3: x; % one of three
output ["% none"];
