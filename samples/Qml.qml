// 17 lines 9 code 7 comments 1 blanks
/* a block
   of two lines */

import QtQuick 2.0
Text {
    text: "// no comment" // shown once
    property string mark: '/*'
}
let a = b.replace(/"/g, c);
// a
let d = b.replace(/'/g, c);
// b
let e = b.replace(/[^"]/g, c);
// c
let f = b.replace(/\/*$/, c);
// d
