; 9 lines 3 code 5 comments 1 blanks
; for people who read
#| a block #| in a block |#
   and its end |#

#lang racket
(define name "a ; name") ; of whom
(displayln 'name)
#;(displayln "left out")
