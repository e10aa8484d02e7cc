\ 9 lines 3 code 5 comments 1 blanks
\ for people who read
( a block
  of two lines )

: twice ( n -- n ) 2 * ;
3 twice . \ six
\
1 .
