-- 7 lines 2 code 4 comments 1 blanks
-- for people who read
{- a block {- in a block -}
   and its end -}

let name = "a -- name" -- of whom
in  { name }
