# 9 lines 4 code 4 comments 1 blanks
# for people who read

Name ← "a # name" # of whom
Quote ← @"
# a comment, since no string is open
Text ← $ # a text
       $ # of two lines
  # a
