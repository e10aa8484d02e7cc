! 14 lines 8 code 5 comments 1 blanks
! for people who read

program greet
  print *, "! none" ! once
end program greet
subroutine path
  print *, 'C:\'
  ! a comment, since a backslash is a byte like others
end subroutine path
  write(*, 10)
10 format(5hdon't)
                        ! a
		! b
