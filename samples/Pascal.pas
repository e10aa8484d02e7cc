// 11 lines 5 code 5 comments 1 blanks
// for people who read
(* a block
   of two lines *)

program Greet;
begin
  WriteLn('// none'); { once }
end.
const PathMark = '\';
// a comment, since a backslash is a byte like others
