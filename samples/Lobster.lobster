// 8 lines 4 code 3 comments 1 blanks
/* a block
   and its end */

let text = """
// none
"""
print text + "/* none" // once
