(* 9 lines 4 code 4 comments 1 blanks *)
(* a block (* in a block *)
   and its end *)

MODULE Greet EXPORTS Main;
BEGIN Put("(* none"); (* once *)
END Greet.
CONST Mark = '"';
(* a *)
