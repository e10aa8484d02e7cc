; 7 lines 2 code 4 comments 1 blanks
; for people who read
( a block
  of two lines )

G21 ; in millimetres
G1 X10 Y10
