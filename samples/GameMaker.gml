// 7 lines 3 code 3 comments 1 blanks
/* a block
   of two lines */

var path = "http://example.org"; // ours
var raw = @"C:\work\";
show_debug_message(path + raw);
