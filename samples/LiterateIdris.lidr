4 lines 0 code 3 comments 1 blanks

> main : IO ()
Its text.
