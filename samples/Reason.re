// 9 lines 4 code 4 comments 1 blanks
/* a block /* in a block */
   and its end */

let path = "http://example.org"; // ours
let text = {|a "quoted" // text|};
print_endline(path ++ text);
let raw = {js|don"t /* a|js};
// a
