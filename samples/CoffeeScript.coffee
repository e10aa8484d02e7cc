# 15 lines 6 code 8 comments 1 blanks
# for people who read
###
a block
###

name = 'a # name' # of whom
console.log "# no comment #{name}"
d = """
  # "don't
  """
# a
#### a heading
# a
e = 1
