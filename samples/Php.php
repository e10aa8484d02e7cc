# 19 lines 10 code 8 comments 1 blanks
# for people who read
/* a block
   of two lines */

function greet($name = 'a # name') { # of whom
    echo "// no comment $name"; // said once
}
#[Attribute]
class A {} # don't
#$b = 1;
$c = <<<EOT
don't
# text
EOT;
// c
#if it's a comment
$d = 2;
#END
