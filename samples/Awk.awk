# 8 lines 4 code 3 comments 1 blanks
# for people who read

BEGIN { print "# no comment" } # said once
{ n += $1 }
END { print n }
{ gsub(/"/, "") }
# a
