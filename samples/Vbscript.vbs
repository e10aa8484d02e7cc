' 9 lines 4 code 4 comments 1 blanks
' for people who read

Dim name
name = "' none" ' a text
MsgBox name
Name = "don't ""go"" there"
' a
rem a
