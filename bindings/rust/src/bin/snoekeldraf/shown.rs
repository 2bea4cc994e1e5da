//! Bytes and names as a person sees them. Nothing from a file reaches the terminal that could steer it.

use std::ffi::OsStr;
use std::fmt::Write;
use std::os::unix::ffi::OsStrExt;

/// The text of bytes that are valid UTF-8 and have only visible characters and spaces; `None` for others.
pub fn text(bytes: &[u8]) -> Option<&str> {
    std::str::from_utf8(bytes).ok().filter(|text| text.chars().all(is_visible))
}

/// Whether a character shows itself and changes nothing around it: no control character, no control of the direction of
/// writing, and none that is invisible or breaks the line.
fn is_visible(character: char) -> bool {
    let steers = matches!(
        character,
        '\u{ad}' | '\u{61c}' | '\u{180e}' | '\u{200b}'..='\u{200f}' | '\u{2028}'..='\u{202e}' | '\u{2060}'..='\u{206f}'
            | '\u{feff}' | '\u{fff9}'..='\u{fffb}' | '\u{e0000}'..='\u{e007f}'
    );
    !character.is_control() && !steers
}

/// Two hexadecimal digits a byte.
pub fn hex(bytes: &[u8]) -> String {
    bytes.iter().fold(String::with_capacity(2 * bytes.len()), |mut hex, byte| {
        let _ = write!(hex, "{byte:02x}"); // writing to a String does not fail
        hex
    })
}

/// Text as it is, other bytes in hexadecimal, and which of the two it is.
pub fn bytes(bytes: &[u8]) -> String {
    match text(bytes) {
        _ if bytes.is_empty() => "(empty)".to_owned(),
        Some(text) => text.to_owned(),
        None => format!("(hex) {}", hex(bytes)),
    }
}

/// A name of a file as it is, or escaped if it has characters that do not show themselves.
pub fn name(name: impl AsRef<OsStr>) -> String {
    let bytes = name.as_ref().as_bytes();
    match text(bytes) {
        Some("") => "\"\"".to_owned(),
        Some(text) => text.to_owned(),
        None => format!("\"{}\"", bytes.escape_ascii()),
    }
}

/// A number with commas between thousands.
pub fn thousands(number: usize) -> String {
    let digits = number.to_string();
    let mut grouped = String::new();
    for (index, digit) in digits.chars().enumerate() {
        if index > 0 && (digits.len() - index) % 3 == 0 {
            grouped.push(',');
        }
        grouped.push(digit);
    }
    grouped
}

/// A count and its noun: `1 entry`, `1,024 entries`.
pub fn count(number: usize, one: &str, many: &str) -> String {
    format!("{} {}", thousands(number), if number == 1 { one } else { many })
}

#[cfg(test)]
mod tests {
    use super::*;

    #[test]
    fn text_is_shown_as_text() {
        for shown in ["N·m ± ü 48.5", "", "ταχύς", "扭矩", "a\u{308}"] {
            assert_eq!(text(shown.as_bytes()), Some(shown));
        }
    }

    #[test]
    fn what_steers_a_terminal_is_hex() {
        for hidden in ["a\nb", "\u{1b}[2J", "\u{7f}", "\u{9b}2J", "\u{202e}", "\u{2066}", "\u{200b}", "\u{feff}", "\t"]
        {
            assert_eq!(text(hidden.as_bytes()), None, "{hidden:?}");
        }
        assert_eq!(bytes(b"a\nb"), "(hex) 610a62");
        assert_eq!(bytes(&[0xff]), "(hex) ff");
        assert_eq!(bytes(b""), "(empty)");
    }

    #[test]
    fn names_are_escaped_where_they_must() {
        assert_eq!(name("dag ü.shift"), "dag ü.shift");
        assert_eq!(name("a\u{1b}[2J"), "\"a\\x1b[2J\"");
        assert_eq!(name(OsStr::from_bytes(&[b'a', 0xff])), "\"a\\xff\"");
    }

    #[test]
    fn numbers_have_commas() {
        assert_eq!([0, 999, 1_000, 1_048_576].map(thousands), ["0", "999", "1,000", "1,048,576"]);
        assert_eq!(count(1, "entry", "entries"), "1 entry");
    }
}
