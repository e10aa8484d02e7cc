# 12 lines 7 code 4 comments 1 blanks
# for people who read

EAPI=8
DESCRIPTION="Greets # none" # ours
SLOT='0'
a='\'
# a
cat <<-EOF
# don't
EOF
# c
