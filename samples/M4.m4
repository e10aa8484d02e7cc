dnl 7 lines 3 code 3 comments 1 blanks
dnl for people who read

define(`name', `a name')
name
dnl
define(a, b)
