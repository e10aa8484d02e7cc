#lang scribble/base
@; 11 lines 5 code 5 comments 1 blanks
@; for people who read
@;{ a block
    of two lines }

@title{Don't} @; once
A text of "quotes,
; which is no comment.
@(define mark "@; none")
  @; a
