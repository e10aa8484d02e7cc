// 16 lines 8 code 7 comments 1 blanks
/* a block
   of two lines */

export const Greeter = (p: { name: string }) => {
    const mark = "// none"; // not shown
    return <b title={'/*'}>{p.name}</b>;
};
let a = b.replace(/"/g, c);
// a
let d = b.replace(/'/g, c);
// b
let e = b.replace(/[^"]/g, c);
// c
let f = b.replace(/\/*$/, c);
// d
