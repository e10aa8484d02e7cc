# 31 lines 11 code 16 comments 4 blanks
# for people who read
=pod
a page
=cut

my $name = 'a # name'; # of whom
print "# no comment $name\n";
croak qq{Can't};
# a
$h=header();
# b

=encoding utf8

=cut

=item a

=cut

$t = <<EOT;
# text
EOT
$h = 1;
$b = "=item";
# c
$c = /^=begin/;
# d
s/=head1//;
# e
