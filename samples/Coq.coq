(* 9 lines 4 code 4 comments 1 blanks *)
(* a block (* in a block *)
   and its end *)

Definition one := 1. (* a number *)
Theorem same : one = 1.
Proof. reflexivity. Qed.
Definition path := "C:\".
(* a *)
