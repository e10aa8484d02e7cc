# 6 lines 3 code 2 comments 1 blanks
# for people who read

cdef int twice(int x):  # in C
    return 2 * x
mark = '# no comment'
