-- 8 lines 3 code 4 comments 1 blanks
// for people who read
/* a block
   and its end */

DEFINE TABLE user; # once
CREATE user SET name = "-- none", mark = '# none';
SELECT `odd // name` FROM user;
