# 7 lines 3 code 3 comments 1 blanks
# for people who read

say hello
give @s minecraft:stone 1
say Don't
# a
