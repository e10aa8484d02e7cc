# 8 lines 4 code 3 comments 1 blanks
# for people who read

@0xdbb9ad1f14bf0b36;
struct Square { side @0 :Float64; } # in metres
const mark :Text = "# none";
using Text = "don't"; # 5" of text
# a
