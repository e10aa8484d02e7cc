// 11 lines 6 code 4 comments 1 blanks
/* a block
   of two lines */

class Greeter {
    static function main() {
        trace('// no comment'); // said once
        var mark = ~/"/;
        // a comment, since the quote mark is in a regular expression
    }
}
