// 7 lines 3 code 3 comments 1 blanks
/* a block
   of two lines */

class Greeter extends Actor;
var string Path; // ours
defaultproperties { Path="http://example.org" }
