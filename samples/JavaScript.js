// 20 lines 12 code 7 comments 1 blanks
/* a block
   of two lines */

const path = 'http://example.org';
function greet(name) {
    console.log("/* no comment", name); // said once
}
greet(path);
const text = `a ' mark
// code, since the text goes on
`;
let a = b.replace(/"/g, c);
// a
let d = b.replace(/'/g, c);
// b
let e = b.replace(/[^"]/g, c);
// c
let f = b.replace(/\/*$/, c);
// d
