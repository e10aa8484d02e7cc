# 6 lines 3 code 2 comments 1 blanks
# for people who read

mark: public(String[8]) # none
@external
def greet() -> String[8]: return "# none"
