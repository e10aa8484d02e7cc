-- 7 lines 2 code 4 comments 1 blanks
-- for people who read
/* a block /* in a block */
   and its end */

name = 'a -- name' -- of whom
say "/* none" name
