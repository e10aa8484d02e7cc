;; 6 lines 3 code 2 comments 1 blanks
; one mark is enough

(define-constant mark ";; none") ; once
(define-public (hello)
  (ok mark))
