% 7 lines 2 code 4 comments 1 blanks
% for people who read
/* a block
   of two lines */

declare
{Show '% none'} % once
