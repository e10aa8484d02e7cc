* 9 lines 4 code 4 comments 1 blanks
* for people who read

REPORT greeter.
WRITE '* none'. " once
WRITE `don't`. " a
* b
WRITE |don't|.
* c
