// 18 lines 13 code 3 comments 2 blanks
/* a block /* in no block,
   and its end */

process greet {
    input: // one
    val name

    script:
    """
    # no comment of this language
    // nor is this
    echo "${name}"
    """
}
params.text = '''a
/* none '''
params.files = 'data/*' // all
