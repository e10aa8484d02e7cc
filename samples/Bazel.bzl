# 7 lines 4 code 2 comments 1 blanks
# for people who read

cc_library(
    name = "greeter", # ours
    srcs = ["#none.c"],
)
