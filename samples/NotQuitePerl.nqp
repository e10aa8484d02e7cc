# 7 lines 2 code 4 comments 1 blanks
=begin
a page
=end

my $isn't := 'a # name'; # of whom
say($isn't);
