BTW 9 lines 3 code 5 comments 1 blanks
BTW for people who read
OBTW
a block
TLDR

HAI 1.2
VISIBLE "BTW NONE" BTW ONCE
KTHXBYE
