-- 8 lines 4 code 3 comments 1 blanks
{- a block {- in a block -}
   and its end -}

quote :: Char
quote = '"' -- once
text = "{- none"
main = putStrLn (text ++ [quote])
