* 9 lines 3 code 5 comments 1 blanks
* for people who read
/* a block /* in a block */
   and its end */

use "data // none" // ours
summarize x
display `"say "/* hi"'
* a
