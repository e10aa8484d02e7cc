-- 10 lines 4 code 5 comments 1 blanks
-- for people who read
{- a block {- in a block -}
   and its end -}

module Main
main : IO ()
main = putStrLn "-- none" -- once
||| a page
c : Int
