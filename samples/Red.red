; 8 lines 4 code 3 comments 1 blanks
; for people who read

Red []
name: "a ; name" ; of whom
print name
mark: #"^""
; a
