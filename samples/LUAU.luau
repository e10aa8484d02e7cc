-- 13 lines 6 code 6 comments 1 blanks
-- for people who read
--[[ a block
     of two lines ]]

local name: string = 'a -- name' -- of whom
print(name, "-- none")
--[==[ a ]]
  block ]==]
local raw = [=[ a ]]
-- text
]=]
print(raw)
