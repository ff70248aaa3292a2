//! Numbers of a text: read in plain digits, and told with what is counted.

use std::str::FromStr;

/// The number that a word has in plain digits, with no sign in front, if it fits its width.
pub fn number<T: FromStr>(word: &str) -> Option<T> {
    let plain = word.bytes().all(|byte| byte.is_ascii_digit());
    word.parse().ok().filter(|_| plain)
}

/// The number of each word; or which word is none of what is looked for.
pub fn numbers<T: FromStr>(words: &[&str], what: &str) -> Result<Vec<T>, String> {
    let of = |word: &&str| number(word).ok_or_else(|| format!("`{word}` is no number of a {what}"));
    words.iter().map(of).collect()
}

/// So many, with the words for one of them or for more.
pub fn counted(count: usize, one: &str, more: &str) -> String {
    format!("{count} {}", if count == 1 { one } else { more })
}
