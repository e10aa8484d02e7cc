# 16 lines 7 code 8 comments 1 blanks
# for people who read
=begin
a block
=end

name = 'a # name' # of whom
puts "# no comment #{name}"
a = %w(don't)
# a
b = /"/
# b
c = <<~EOS
  # text, don't
EOS
# c
