# 9 lines 5 code 3 comments 1 blanks
# for people who read

version 1.0
task greet {
  command { echo "# no comment" } # said once
}
command { echo Don\'t 5\" }
# a
