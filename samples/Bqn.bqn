# 9 lines 4 code 4 comments 1 blanks
# for people who read

name ← "a # name" # of whom
•Show name
path ← "C:\"
# a
mark ← '"'
# b
