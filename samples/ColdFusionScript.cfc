// 11 lines 4 code 6 comments 1 blanks
/* a block
   of two lines */

component {
    function greet() { return "// no comment"; } // once
}
path = replace(path, "\", "/");
// a comment, since a backslash is a byte like others
<!--- a
      block --->
