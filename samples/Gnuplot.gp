# 7 lines 3 code 3 comments 1 blanks
# for people who read

set title "# none" # ours
plot 'a # b.txt'
set label 1 at 5,5 'it\'
# a
