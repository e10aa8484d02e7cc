// 5 lines 2 code 2 comments 1 blanks
// for people who read

module example.org/greeter
go 1.22 // at least
