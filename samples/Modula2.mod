(* 7 lines 3 code 3 comments 1 blanks *)
(* a block (* in a block *)
   and its end *)

MODULE Greet;
BEGIN WriteString('(* none'); (* once *)
END Greet.
