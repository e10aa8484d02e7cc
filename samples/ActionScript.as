// 9 lines 5 code 3 comments 1 blanks
/* a block
   of two lines */

package {
    public class Greeter {
        public var path:String = "http://example.org"; // ours
    }
}
