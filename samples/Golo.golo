# 8 lines 3 code 4 comments 1 blanks
----
documentation of the module
----

module Greeter
function main = |names| {
  println("# none") }
