//! The words of a line, as REPLAY.md has them: one space between words, decimal numbers, bytes in lower-case hexadecimal
//! with `-` for none.

use std::fmt::Write;

/// The words of a line.
pub fn words(line: &str) -> Vec<&str> {
    line.split(' ').collect()
}

/// A line that prints nothing.
pub fn silent(line: &str) -> bool {
    line.is_empty() || line.starts_with('#')
}

pub fn number<T: TryFrom<u64>>(word: &str) -> Option<T> {
    if word.is_empty() || !word.bytes().all(|b| b.is_ascii_digit()) {
        return None;
    }
    T::try_from(word.parse::<u64>().ok()?).ok()
}

fn digit(b: u8) -> Option<u8> {
    match b {
        b'0'..=b'9' => Some(b - b'0'),
        b'a'..=b'f' => Some(b - b'a' + 10),
        _ => None,
    }
}

pub fn bytes(word: &str) -> Option<Vec<u8>> {
    if word == "-" {
        return Some(Vec::new());
    }
    let word = word.as_bytes();
    if word.is_empty() || word.len() % 2 != 0 {
        return None;
    }
    word.chunks(2).map(|pair| Some(digit(pair[0])? * 16 + digit(pair[1])?)).collect()
}

pub fn hex(bytes: &[u8]) -> String {
    if bytes.is_empty() {
        return "-".into();
    }
    let mut word = String::with_capacity(2 * bytes.len());
    for b in bytes {
        write!(word, "{b:02x}").unwrap();
    }
    word
}
