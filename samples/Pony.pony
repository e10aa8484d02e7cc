// 9 lines 4 code 4 comments 1 blanks
/* a block /* in a block */
   and its end */

actor Main
  new create(env: Env) =>
    env.out.print("// no comment") // said once
let mark: U8 = '"'
// a
