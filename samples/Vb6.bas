' 11 lines 5 code 5 comments 1 blanks
' for people who read

Sub Greet()
    MsgBox "' none" ' once
End Sub
Const Folder = "C:\work\"
' a comment, since a backslash is a byte like others
Name = "don't ""go"" there"
' a
rem a
