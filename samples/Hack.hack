// 9 lines 5 code 3 comments 1 blanks
/** for people who read,
 *  and its end */

function greet(): string {
  $quote = '// none'; // once
  $text = "/* none \" ";
  return $text . $quote;
}
