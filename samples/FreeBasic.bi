' 8 lines 2 code 5 comments 1 blanks
' for people who read
/' a block /' in a block '/
   and its end '/

Dim As String mark = "' none" ' a text
Print mark
rem a
