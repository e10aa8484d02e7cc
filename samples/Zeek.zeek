# 7 lines 3 code 3 comments 1 blanks
# for people who read

event zeek_init() { # at start
    print "# none"; }
global mark = /"/;
# a
