// 7 lines 3 code 3 comments 1 blanks
/* a block
   of two lines */

public class Greeter {
    String path = 'http://example.org'; // ours
}
