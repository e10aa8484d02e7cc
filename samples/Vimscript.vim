" 9 lines 4 code 4 comments 1 blanks
" for people who read

set number
let name = 'a " name'
echo name
syn match A +'+
" a
# a comment of Vim 9
