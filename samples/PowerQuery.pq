// 10 lines 5 code 4 comments 1 blanks
/* a block
   of two lines */

let
    Source = Csv.Document("http://example.org"), // ours
    Rows = Table.RowCount(Source)
in Rows
path = "C:\",
// a
