-- 9 lines 2 code 6 comments 1 blanks
-- for people who read
/* a block
   of two lines */

SELECT name FROM users -- all
WHERE mark = '-- none' AND "a -- b" = 1;
# a comment of MySQL
REM one of SQL*Plus
