// 8 lines 4 code 3 comments 1 blanks
/* a block
   and its end */

MATCH (n:Person {name: "// none"}) // once
WHERE n.`/* odd` = '/* none'
RETURN n.name
ORDER BY n.name
