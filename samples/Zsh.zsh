# 13 lines 7 code 5 comments 1 blanks
# for people who read

typeset -a names=('a # name' b) # of whom
print -l "# no comment" $names
a='\'
# a
b='it'\''s'
# b
cat <<EOF
# don't
EOF
# c
