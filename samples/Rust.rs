// 20 lines 11 code 8 comments 1 blanks
/* a block /* in a block */
   and its end */

/// Twice a number.
/// Never more.
fn twice<'a>(x: &'a u32) -> u32 {
    let mark = "// none"; // a text
    let _ = mark;
    2 * x
}
const MARK: char = '"';
// a comment, since the mark opens no string
const RAW: &str = r#"a " mark
// code, since the string goes on
"#;
const PATH: &str = r"\";
// a
const RAW: &str = r##"a "# b"##;
// b
