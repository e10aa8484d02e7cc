// 9 lines 5 code 3 comments 1 blanks
/* a block
   of two lines */

param name string = 'it\'s // a name' // of whom
var raw = '''
// text, don't
'''
output all string = '/* none'
