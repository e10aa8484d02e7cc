// 8 lines 4 code 3 comments 1 blanks
/* a block
   of two lines */

void main() {
    print("// no comment"); // said once
    print('/*');
}
