# 11 lines 4 code 6 comments 1 blanks
# for people who read
<# a block
   of two lines #>

$name = 'a # name' # of whom
Write-Output "# no comment $name"
$folder = "C:\work\"
# a comment, since a backslash is a byte like others
$a = "`""
# a
