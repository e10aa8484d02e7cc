# 6 lines 3 code 2 comments 1 blanks
# for people who read

extends Node
func _ready():
    print("# no comment") # said once
