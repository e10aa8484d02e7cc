# 10 lines 5 code 4 comments 1 blanks
# for people who read

task :greet do # on demand
  puts "# no comment"
end
a = %w(don't)
# a
b = /"/
# b
