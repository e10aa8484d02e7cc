// 9 lines 4 code 4 comments 1 blanks
/* a block /* in no block,
   and its end */

/** a page */
import javascript // all
from Comment c
where c.getText() = "/* none"
select c, "a \" // name" // of whom
