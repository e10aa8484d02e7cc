// 11 lines 7 code 3 comments 1 blanks
/* a block
   of two lines */

def name = 'a /* name'
println "// no comment, ${name}" // said once
[1, 2].each { println it }
def text = '''
a ' mark
// code, since the text goes on
'''
