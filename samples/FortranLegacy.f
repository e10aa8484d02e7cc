C 10 lines 5 code 4 comments 1 blanks
C for people who read

      PROGRAM GREET
      PRINT *, 'C NONE'
      END
      PRINT *, 5HDON'T
  ! a note
     !+ 1
	! b
