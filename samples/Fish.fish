# 7 lines 4 code 2 comments 1 blanks
# for people who read

set name 'a # name' # of whom
function greet
    echo "# no comment" $name
end
