# 7 lines 4 code 2 comments 1 blanks
cwlVersion: v1.2
class: CommandLineTool

# what is run
baseCommand: [echo, "a # b"]
inputs: []
