-- 7 lines 2 code 4 comments 1 blanks
-- for people who read
/* a block
   of two lines */

sig Node { next: lone Node } -- at most one
run {} for 3
