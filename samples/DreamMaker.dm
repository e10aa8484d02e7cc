// 7 lines 3 code 3 comments 1 blanks
/* a block /* in a block */
   and its end */

/mob/proc/greet()
	world << "/* no comment" // said once
	return 1
