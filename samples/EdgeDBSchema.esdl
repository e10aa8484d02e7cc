# 12 lines 8 code 3 comments 1 blanks
# for people who read

type User {
    required name: str; # of whom
    mark := 'a \' # none';
    path := r'C:\';
    # a comment, since no string is open
    text := $$a "text
# none$$;
    link := "#none";
}
