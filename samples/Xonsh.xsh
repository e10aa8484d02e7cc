# 8 lines 6 code 1 comments 1 blanks
"""A text of documentation
# in a string"""

$NAME = 'a # b'
def _f(args):
    echo @(args) "# c"
aliases['f'] = _f
