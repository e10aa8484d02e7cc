# 9 lines 5 code 3 comments 1 blanks
# for people who read

SUMMARY = "Greets # none" # ours
inherit autotools
do_install() {
    echo Don\'t
    # a
}
