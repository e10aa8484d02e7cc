-- 9 lines 5 code 3 comments 1 blanks
-* a block
   and its end *-

R = QQ[x, y] -- once
text = "-- none -* none"
other = ///
-- none " either
///
