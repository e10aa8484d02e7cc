# 13 lines 7 code 5 comments 1 blanks
# for people who read

typeset name='a # name' # of whom
print "# no comment $name"
a='\'
# a
b='it'\''s'
# b
cat <<EOF
# don't
EOF
# c
