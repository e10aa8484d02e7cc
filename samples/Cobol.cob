*> 9 lines 4 code 4 comments 1 blanks
*> for people who read

       IDENTIFICATION DIVISION.
       PROGRAM-ID. GREET.
       DISPLAY "*> none". *> once
      * for people who read
       DISPLAY "DON'T".
      * a
