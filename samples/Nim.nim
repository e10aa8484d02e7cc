# 13 lines 4 code 8 comments 1 blanks
# for people who read
#[ a block #[ in a block ]#
   and its end ]#

let name = "a # name" # of whom
echo name
##[ a page
  ]# of two ]##
let path = r"C:\"
# a
let text = """a \"""
# b
