# 9 lines 6 code 2 comments 1 blanks
# for people who read

def greet(name='a # name'):  # of whom
    """Greets.

    # no comment, but text of the documentation
    """
    print("# no comment", name)
