-- 8 lines 4 code 3 comments 1 blanks
{- a block {- in a block -}
   and its end -}

%name parse
%token '"' { Mark }
%%
All : "{- none" { $1 } -- once
