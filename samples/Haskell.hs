-- 11 lines 5 code 5 comments 1 blanks
-- for people who read
{- a block {- in a block -}
   and its end -}

module Main where
name = "a -- name" -- of whom
main = putStrLn name
quote' = 'q'
mark = '"'
-- a comment, since the mark opens no string
