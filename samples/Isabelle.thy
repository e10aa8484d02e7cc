(* 9 lines 3 code 5 comments 1 blanks *)
(* a block (* in a block *)
   and its end *)

theory Greet imports Main begin
lemma "x = x" by simp (* same *)
end
-- "a"
\<comment> \<open>a\<close>
