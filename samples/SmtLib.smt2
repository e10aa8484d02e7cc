; 6 lines 4 code 1 comments 1 blanks

(set-info :source |a text
; none " |)
(declare-const x Int) ; once
(assert (= "; none" "\"))
