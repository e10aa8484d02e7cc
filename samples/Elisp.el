; 5 lines 2 code 2 comments 1 blanks
; for people who read

(setq name "a ; name") ; of whom
(message "%s" 'name)
