# 7 lines 3 code 3 comments 1 blanks
# for people who read

let name = 'a # name' # of whom
print $"# no comment ($name)"
let raw = r#'don't'#
# a
