// 11 lines 5 code 5 comments 1 blanks
/* a block
   of two lines */

class Shape<string n> { string name = n; }
def Square : Shape<"// none">; // one
/* a /* in a */
   block */
def Text : Shape<[{
  // none
}]>;
