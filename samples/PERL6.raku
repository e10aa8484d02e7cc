# 14 lines 3 code 10 comments 1 blanks
# for people who read
=begin pod
a page
=begin code
say 1;
=end code
its end
=end pod

my $name = 'a # name'; # of whom
say "# no comment $name";
my $isn't = 1;
# a
