// 8 lines 4 code 3 comments 1 blanks
/* a block
   of two lines */

module GreeterC { uses interface Boot; }
implementation {
  event void Boot.booted() { dbg("Boot", "// ready"); } // once
}
