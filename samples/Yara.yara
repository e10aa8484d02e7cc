// 8 lines 4 code 3 comments 1 blanks
/* a block
   of two lines */

rule greeting {
    strings: $a = "// no comment" // as text
    condition: $a
}
