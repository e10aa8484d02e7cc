// 10 lines 6 code 3 comments 1 blanks
package Sample api;

// for people who read
fn Run() -> i32 {
  var s: String = '''
    // none
    ''';
  // once
  return 0; }
