// 8 lines 4 code 3 comments 1 blanks
/* a block
   of two lines */

void main() {
    var raw = """a "quoted" // text \""";
    print("/* no comment %s", raw); // said once
}
