% 10 lines 4 code 5 comments 1 blanks
% for people who read
/* a block
   of two lines */

:- module greeter.
:- pred greet(string::in) is det. % once
greet("% none").
p :- q(0'a).
% a
