# 7 lines 2 code 4 comments 1 blanks
# for people who read
/* a block
   of two lines */

struct Square { 1: double side } # in metres
const string MARK = "# none"
