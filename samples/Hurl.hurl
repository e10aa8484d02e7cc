# 7 lines 3 code 3 comments 1 blanks
# for people who read

GET http://example.org
HTTP 200
Don't: 5"
# a
