// 9 lines 5 code 3 comments 1 blanks
/* a block
   and its end */

program sample.aleo {
    transition main(public a: u32) -> u32 {
        return a + 1u32; // once
    }
}
