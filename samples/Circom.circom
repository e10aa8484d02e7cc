// 10 lines 6 code 3 comments 1 blanks
/* a block
   of two lines */

pragma circom 2.0.0;
template Square() {
    signal input side; // in metres
    signal output area;
    area <== side * side;
}
