; 6 lines 4 code 1 comments 1 blanks

(defrule greet "; none"
  (person (name ?n)) ; once
  =>
  (printout t "hello; " ?n crlf))
