NB. 7 lines 3 code 3 comments 1 blanks
NB. for people who read

name =: 'a NB. name' NB. of whom
echo name
mark =: ''''
NB. a
