# 15 lines 9 code 5 comments 1 blanks
# for people who read

name='a # name' # of whom
if [ -n "$name" ]; then
    echo "# no comment"
fi
a='\'
# a
b='it'\''s'
# b
cat <<EOF
# don't
EOF
# c
