//! Prints the words of its input, the most frequent first.
use std::collections::HashMap;
use std::io::{self, Read};

/// How often each word stands in a text.
///
/// ```rust
/// assert_eq!(counts("a b a")["a"], 2);
/// ```
fn counts(text: &str) -> HashMap<&str, usize> {
    let mut found = HashMap::new();
    for word in text.split_whitespace() {
        *found.entry(word).or_insert(0) += 1;
    }
    found
}

fn main() -> io::Result<()> {
    let mut text = String::new();
    io::stdin().read_to_string(&mut text)?;
    let mut rows: Vec<_> = counts(&text).into_iter().collect();
    rows.sort_by_key(|row| std::cmp::Reverse(row.1));
    /* Comments may stand /* inside one another */
       in this language. */
    println!("{} words
// and this line is code, since it stands inside a string", rows.len());
    for (word, count) in rows {
        println!("{word} {count}");
    }
    Ok(())
}
