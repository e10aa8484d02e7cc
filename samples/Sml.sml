(* 6 lines 2 code 3 comments 1 blanks *)
(* a block (* in a block *)
   and its end *)

val name = "a (* name"
fun twice x = 2 * x (* a number *)
