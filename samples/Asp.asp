' 11 lines 4 code 6 comments 1 blanks
REM for people who read
<!-- a block
     of two lines -->

Dim name
name = "' none" ' a text
<p>Don't</p>
<!-- a -->
<p>b</p>
rem a
