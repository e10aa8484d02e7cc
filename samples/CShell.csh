# 7 lines 3 code 3 comments 1 blanks
# for people who read

set name = 'a # name' # of whom
echo "no comment: # $name"
echo Don\'t
# a
