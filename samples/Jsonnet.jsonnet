# 11 lines 5 code 5 comments 1 blanks
# for people who read
/* a block
   of two lines */

{ name: 'a # name', # of whom
  path: "http://example.org" }
  d: |||
    /* don't
  |||,
// a
