//! The pairs of a text (request A.6), such as `3 1, 2 4`. A job has them as the bytes of a pair file.

use crate::numbers::numbers;

/// The bytes of some pairs, with commas between them, or of none.
pub fn pairs(words: &[&str]) -> Result<Vec<u8>, String> {
    if words == ["none"] {
        return Ok(Vec::new());
    }
    let mut bytes = Vec::new();
    for pair in words.join(" ").split(',') {
        let words: Vec<&str> = pair.split_whitespace().collect();
        let stops: Vec<u8> = numbers(&words, "stop")?;
        if stops.len() != 2 {
            return Err(format!("`{}` is no pair: two stops each, with commas between the pairs", words.join(" ")));
        }
        bytes.extend(stops);
    }
    Ok(bytes)
}

/// The line of some pairs, if there are any.
pub fn text(pairs: &[u8]) -> String {
    if pairs.is_empty() {
        return String::new();
    }
    let stops = |pair: &[u8]| pair.iter().map(|stop| stop.to_string()).collect::<Vec<String>>().join(" ");
    let told: Vec<String> = pairs.chunks(2).map(stops).collect();
    format!("pairs {} # in each the first stop is flown before the second\n", told.join(", "))
}
