; 6 lines 2 code 3 comments 1 blanks
; for people who read

(def name "a ; name") ; of whom
(js/alert 'name)
#_(def other 1)
