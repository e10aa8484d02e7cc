// 8 lines 4 code 3 comments 1 blanks
/* a block /* in a block */
   and its end */

module example::greeter {
    const MARK: vector<u8> = b"// none"; // no comment
    public fun one(): u64 { 1 }
}
