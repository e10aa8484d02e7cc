-- 16 lines 7 code 8 comments 1 blanks
-- for people who read
/* a block
   of two lines */

BEGIN
  DBMS_OUTPUT.PUT_LINE('-- none'); -- once
END;
CREATE DIRECTORY work AS 'C:\work\';
-- a comment, since a backslash is a byte like others
  raw := q'[don't]';
-- a
  raw := Q'|don't|';
-- a
  b := 1; /* c
  d */
