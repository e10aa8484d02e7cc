-- 15 lines 9 code 5 comments 1 blanks
-- for people who read

with Ada.Text_IO;
procedure Greet is
   Mark : constant Character := 'x'; -- a letter
begin
   Ada.Text_IO.Put_Line ("-- none"); -- once
end Greet;
-- a comment behind the procedure
Path_Mark : constant String := "\";
Quote : constant Character := '"';
-- a comment, since no string is open
   Mark : Character := '"';
   --  a
