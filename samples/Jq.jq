# 5 lines 2 code 2 comments 1 blanks
# for people who read

def twice: 2 * .; # a number
.names | map("# \(.)")
