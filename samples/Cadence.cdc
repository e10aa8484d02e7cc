// 9 lines 4 code 4 comments 1 blanks
/* a block /* in a block */
   and its end */
/// for people who read

access(all) contract Greeter {
    access(all) let mark: String // once
    init() { self.mark = "/* none" }
}
