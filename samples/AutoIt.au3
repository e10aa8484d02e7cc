; 17 lines 2 code 14 comments 1 blanks
; for people who read
#cs
a block
#ce

$name = "a ; name" ; of whom
MsgBox(0, 'title', $name)
#CS
 a block
#CE
#cs
 a block
#cs
 in a block
#ce
#ce
