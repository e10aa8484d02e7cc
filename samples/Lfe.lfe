; 5 lines 2 code 2 comments 1 blanks
; for people who read

(defun twice (x) (* 2 x)) ; a number
(io:format "; none")
