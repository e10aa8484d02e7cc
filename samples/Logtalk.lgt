% 10 lines 4 code 5 comments 1 blanks
% for people who read
/* a block
   of two lines */

:- object(greeter).
    greet :- write('% none'). % once
:- end_object.
    next(0'a),
% a
