-- 7 lines 3 code 3 comments 1 blanks
-- for people who read

def twice (x: i32) = 2 * x -- a number
entry main = twice
let mark = '"'
-- a
