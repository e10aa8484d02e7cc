% 10 lines 3 code 6 comments 1 blanks
% for people who read
%{
a block %{ in a block %}
%}

x = a'; % transposed
disp("% none")
mark = '"';
% a
