% 11 lines 4 code 6 comments 1 blanks
% for people who read
/* a block
   of two lines */

parent(tom, bob). % one
mark("% none", 'a % b').
skip(In, 0'a),
% a
q(X) :- X = 'it''s', Y = "a % b".
% b
