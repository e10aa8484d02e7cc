/* 6 lines 2 code 3 comments 1 blanks */
/* a block
   of two lines */

ENTRY(start)
SECTIONS { .text : { *(.text) } } /* all */
