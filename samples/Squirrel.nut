// 8 lines 4 code 3 comments 1 blanks
# for people who read
/* a block */

local path = @"C:\work\"
function greet() {
    print("/* no comment") // said once
}
