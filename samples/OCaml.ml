(* 12 lines 6 code 5 comments 1 blanks *)
(* a block (* in a block *)
   and its end *)

let name = "a (* name"
let quoted = {|a "quoted" (* text|}
let rec poly : 'a -> 'a = fun x -> x (* same *)
let () = print_endline (name ^ quoted)
let mark = '"'
(* a comment, since the mark opens no string *)
let raw = {sql|don"t (* a|sql}
(* a *)
