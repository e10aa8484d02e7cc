// 9 lines 3 code 5 comments 1 blanks
/* a block */
(* a block (* in a block *)
   and its end *)

val mark = "// none" // one
implement main0 () = println! (mark)
val mark = '"'
// a
