-- 9 lines 5 code 3 comments 1 blanks
-- for people who read

class GREETER
feature
  greet do print ("-- none") end -- once
end
		mark := '"'
		-- a
