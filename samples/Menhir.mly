// 11 lines 4 code 6 comments 1 blanks
/* a block */
(* a block (* in a block *)
   and its end *)

%token <int> NUMBER
sum: NUMBER PLUS NUMBER { "(* none" } // of two
/* a block /* in no block */
number: NUMBER { $1 }
mark: MARK { '"' }
// a
