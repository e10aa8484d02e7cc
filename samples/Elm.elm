-- 8 lines 3 code 4 comments 1 blanks
-- for people who read
{- a block {- in a block -}
   and its end -}

module Main exposing (main)
name = "a -- name" -- of whom
main = text name
