// 14 lines 9 code 4 comments 1 blanks
/* a block /* in a block */
   and its end */

void main() {
  var raw = r'a \ // text';
  print("/* no comment $raw"); // said once
}
const doc = '''
// no comment
''';
var raw = r"""
// \""";
// a
