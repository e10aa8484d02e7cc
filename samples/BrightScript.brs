' 9 lines 4 code 4 comments 1 blanks
' for people who read

sub Main()
    print "' none" ' once
end sub
print "a"; "b ' c
' a
Rem a
