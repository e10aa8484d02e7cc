! 12 lines 3 code 8 comments 1 blanks
! for people who read

USING: io ;
"! none" print ! once
!
1 .
#! a
/* a block
   of two lines */
![[ a block
    of two lines ]]
