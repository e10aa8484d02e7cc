// 12 lines 6 code 5 comments 1 blanks
// for people who read
(* a block (* in a block *)
   and its end *)

let path = "http://example.org" // ours
let raw = @"C:\work\"
let quoted = """a "quoted" (* text"""
printfn "%s" (path + raw + quoted)
let times = (*)
let twice = (2)
// a
