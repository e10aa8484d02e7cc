# 6 lines 3 code 2 comments 1 blanks
# for people who read

define e = Character("Eve # one") # she
label start:
    e "Good day."
