// 9 lines 5 code 3 comments 1 blanks
/* a block /* in a block */
   and its end */

fn mark() {
    let text = `// none \`;
    let quote = '"'; // once
    text + "/* none" + quote
}
