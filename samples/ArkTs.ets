// 16 lines 8 code 7 comments 1 blanks
/* a block
   of two lines */

@Entry
struct Greeter {
  build() { Text('// no comment') } // shown once
}
let a = b.replace(/"/g, c);
// a
let d = b.replace(/'/g, c);
// b
let e = b.replace(/[^"]/g, c);
// c
let f = b.replace(/\/*$/, c);
// d
