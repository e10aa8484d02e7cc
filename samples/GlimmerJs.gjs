// 14 lines 8 code 5 comments 1 blanks

const name = "a // name";
<template>
<p>{{name}}</p>
</template>
let a = b.replace(/"/g, c);
// a
let d = b.replace(/'/g, c);
// b
let e = b.replace(/[^"]/g, c);
// c
let f = b.replace(/\/*$/, c);
// d
