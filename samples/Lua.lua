-- 16 lines 9 code 6 comments 1 blanks
-- for people who read
--[[ a block
     of two lines ]]

local name = 'a -- name' -- of whom
local text = [[
-- no comment
]]
print(name, "-- none", text)
--[==[ a ]]
  block ]==]
local raw = [=[ a ]]
-- text
]=]
print(raw)
