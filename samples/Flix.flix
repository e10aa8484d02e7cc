// 8 lines 3 code 4 comments 1 blanks
/* a block /* in a block */
   and its end */
/// for people who read

def main(): Unit \ IO =
    let quote = '"'; // once
    println("/* none ${quote}")
