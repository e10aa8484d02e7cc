/ 9 lines 4 code 4 comments 1 blanks
/ for people who read

name:"a / name" / of whom
quote:"\""
/ a comment, since no string is open
total:(+/) 1 2 3
show select from ([] sym:`a`b)
  / a
