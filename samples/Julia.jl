# 10 lines 5 code 4 comments 1 blanks
# for people who read
#= a block #= in a block =#
   and its end =#

name = "a # name" # of whom
"""
# text of the documentation
"""
twice(x) = 2x
