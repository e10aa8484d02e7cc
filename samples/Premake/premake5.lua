-- 11 lines 6 code 4 comments 1 blanks
-- for people who read

workspace "-- none" -- ours
  configurations { 'Debug' }
--[==[ a ]]
  block ]==]
local raw = [=[ a ]]
-- text
]=]
print(raw)
