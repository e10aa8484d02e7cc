# 8 lines 3 code 4 comments 1 blanks
// for people who read
/* a block */

name = "a # name" # of whom
see name
folder = "C:\work\"
# a comment, since a backslash is a byte like others
