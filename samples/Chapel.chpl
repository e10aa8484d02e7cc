// 11 lines 6 code 4 comments 1 blanks
/* a block /* in a block */
   and its end */

config const n = 3;
for i in 1..n do
  writeln("/* no comment ", i); // said n times
writeln('// done');
var raw = """
  /* \""";
// a
