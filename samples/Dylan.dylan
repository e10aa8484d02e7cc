// 11 lines 5 code 5 comments 1 blanks
/* a block /* in a block */
   and its end */

define method greet () => ();
  format-out("// no comment"); // said once
end method;
define constant $mark = '"';
// a
define constant $path = #r"C:\";
// a
