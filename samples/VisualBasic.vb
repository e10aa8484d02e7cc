' 7 lines 3 code 3 comments 1 blanks
' for people who read

Module Greeter
    Dim Mark As String = "' none" ' a text
End Module
rem a
