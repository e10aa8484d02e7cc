// 18 lines 5 code 12 comments 1 blanks
// for people who read
/* a block
   of two lines */

.globl start
start: mov $1, %eax // one
msg: .ascii "// none"
#define ONE 1
# a comment, since a blank stands behind the mark
; a
	mov $'"', %al
/* b */
#	a
## a
#------
! a
!	a
