# 8 lines 4 code 3 comments 1 blanks
# for people who read

name <- 'a # name' # of whom
twice <- function(x) 2 * x
print("# no comment")
path <- r"(C:\)"
# a
