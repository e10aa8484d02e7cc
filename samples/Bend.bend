# 8 lines 3 code 4 comments 1 blanks
#{ a block
   and its end #}

def main():
  name = "# none" # once
  # {name} is a comment
  return name
