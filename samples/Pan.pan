# 18 lines 8 code 9 comments 1 blanks
# for people who read
@{ a page: don't
   read on }
@documentation{
    desc = it's a page too
}

object template greet;
"/name" = "a \" # name"; # of whom
'/path' = 'C:\';
# a comment, since no string is open
"/text" = <<EOF;
# none, don't
EOF
"/lines" = "a
# none";
  # a
