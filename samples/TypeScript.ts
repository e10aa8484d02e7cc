// 16 lines 8 code 7 comments 1 blanks
/* a block
   of two lines */

const path: string = 'http://example.org';
const text = `// no comment
/* nor this`;
export function greet(): void { console.log(path, "/*", text); } // once
let a = b.replace(/"/g, c);
// a
let d = b.replace(/'/g, c);
// b
let e = b.replace(/[^"]/g, c);
// c
let f = b.replace(/\/*$/, c);
// d
