// 7 lines 3 code 3 comments 1 blanks
/* a block
   of two lines */

[Exposed=Window]
interface Square { attribute double side; }; // in metres
dictionary Marks { DOMString mark = "//"; };
