; 7 lines 3 code 3 comments 1 blanks
; for people who read

Name "a ; name" ; ours
OutFile 'setup.exe'
InstallDir "C:\work\"
; a comment, since a backslash is a byte like others
