# 7 lines 3 code 3 comments 1 blanks
# for people who read

name := "a # name"; # of whom
Print( name );
mark := '"';
# a
