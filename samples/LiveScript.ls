# 9 lines 3 code 5 comments 1 blanks
# for people who read
/* a block
   of two lines */

name = 'a # name' # of whom
console.log "# no comment"
a = b.replace /"/g, c
# a
