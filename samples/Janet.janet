# 6 lines 3 code 2 comments 1 blanks
# for people who read

(def name "a # name") # of whom
(def raw `a \ # text`)
(print name raw)
