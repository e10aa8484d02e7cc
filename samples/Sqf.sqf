// 7 lines 3 code 3 comments 1 blanks
/* a block
   of two lines */

private _path = "http://example.org"; // ours
hint '/* no comment';
player setDamage 0;
