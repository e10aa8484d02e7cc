# 14 lines 8 code 5 comments 1 blanks
# for people who read

name='a # name' # of whom
echo "# no comment, $name"
for n in 1 2; do echo "$n"; done
a='\'
# a
b='it'\''s'
# b
cat <<EOF
# don't
EOF
# c
