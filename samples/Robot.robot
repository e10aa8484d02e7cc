# 8 lines 3 code 4 comments 1 blanks
# for people who read

*** Test Cases ***
Greets
    Log    Good day
*** Comments ***
a text
