# 8 lines 4 code 3 comments 1 blanks
# for people who read

break main
printf "# none\n"
run
echo Don't\n
# a
