// 9 lines 5 code 3 comments 1 blanks
/* a block
   of two lines */

module post(height = 3) {
    cube([1, 1, height]); // in metres
    echo("/* no comment");
}
post();
