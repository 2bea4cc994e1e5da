//! Byte strings as the vectors write them: parts joined by `+`. A part is hex digits, `LEN*BB` (LEN times the byte BB) or
//! `LEN@SEED` (the LEN bytes of `ruled`). An answer may also be `LEN#DIGEST`, its length and SHA-256.

use super::sha256::sha256;
use crate::show::{hex, unhex};

/// A run of at least this many equal bytes is written as `LEN*BB`.
const LONG_RUN: usize = 40;

/// An answer whose text would be longer is written as its digest.
const LONGEST_TEXT: usize = 2048;

/// The bytes by the rule of vectors/README.md: byte i is the lowest byte of seed + 31 i + i / 256, rounded down.
pub fn ruled(len: usize, seed: usize) -> Vec<u8> {
    (0..len).map(|i| (seed + 31 * i + i / 256) as u8).collect()
}

/// The text that stands for the bytes of `ruled`.
pub fn ruled_text(len: usize, seed: usize) -> String {
    format!("{len}@{seed}")
}

/// The text of a byte string, with long runs of one byte shortened.
pub fn text_of(bytes: &[u8]) -> String {
    let mut parts: Vec<String> = vec![];
    let mut plain = String::new();
    for run in bytes.chunk_by(|a, b| a == b) {
        if run.len() < LONG_RUN {
            plain += &hex(run);
            continue;
        }
        parts.extend((!plain.is_empty()).then(|| std::mem::take(&mut plain)));
        parts.push(format!("{}*{:02x}", run.len(), run[0]));
    }
    parts.extend((!plain.is_empty()).then_some(plain));
    parts.join("+")
}

/// The text of a byte string of an answer; a long one is written as its digest.
pub fn answer_text(bytes: &[u8]) -> String {
    let text = text_of(bytes);
    if text.len() > LONGEST_TEXT {
        return format!("{}#{}", bytes.len(), hex(&sha256(bytes)));
    }
    text
}

/// The byte string that a text stands for. Panics on a digest.
pub fn bytes_of(text: &str) -> Vec<u8> {
    text.split('+').flat_map(part_of).collect()
}

fn part_of(part: &str) -> Vec<u8> {
    let number = |digits: &str| digits.parse().expect("a number");
    if let Some((len, byte)) = part.split_once('*') {
        return vec![unhex(byte)[0]; number(len)];
    }
    match part.split_once('@') {
        Some((len, seed)) => ruled(number(len), number(seed)),
        None => unhex(part),
    }
}

#[cfg(test)]
mod tests {
    use super::*;

    #[test]
    fn texts_and_bytes() {
        let bytes = [vec![1, 2], vec![0; 50], vec![3], vec![7; 41]].concat();
        assert_eq!(text_of(&bytes), "0102+50*00+03+41*07");
        assert_eq!(bytes_of(&text_of(&bytes)), bytes);
        assert_eq!(bytes_of("ff+3@250"), [0xff, 250, 25, 56]);
        assert_eq!(bytes_of(&ruled_text(600, 9)), ruled(600, 9));
        assert!(bytes_of("").is_empty() && text_of(&[]).is_empty());
        assert!(answer_text(&ruled(2000, 0)).starts_with("2000#"));
    }
}
