; 8 lines 3 code 4 comments 1 blanks
; for people who read
#| a block #| in a block |#
   and its end |#

(defvar *name* "a ; name") ; of whom
(defun twice (x) (* 2 x))
(print 'name)
