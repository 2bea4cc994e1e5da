//! Bytes and lists as the test programs write them.

pub fn hex(bytes: &[u8]) -> String {
    bytes.iter().map(|b| format!("{b:02x}")).collect()
}

pub fn unhex(digits: &str) -> Vec<u8> {
    let digits: Vec<u8> = digits.bytes().filter(|d| *d != b' ').collect();
    let digit = |d: u8| (d as char).to_digit(16).expect("a hex digit") as u8;
    digits.chunks(2).map(|pair| 16 * digit(pair[0]) + digit(pair[1])).collect()
}

/// The fold of the bytes, in hex: starting from 0, each byte b maps s to (257 s + b + 1) modulo 4294967291, the largest
/// prime below 2^32.
pub fn fold(bytes: &[u8]) -> String {
    let sum = bytes.iter().fold(0u64, |s, b| (s * 257 + *b as u64 + 1) % 4_294_967_291);
    format!("{sum:08x}")
}

/// The numbers of a list in decimal, each after a space.
pub fn list(numbers: &[u32]) -> String {
    numbers.iter().map(|number| format!(" {number}")).collect()
}

/// At most 64 bytes in hex; longer ones as their length and fold.
pub fn shown(bytes: &[u8]) -> String {
    if bytes.len() <= 64 {
        hex(bytes)
    } else {
        format!("{}:{}", bytes.len(), fold(bytes))
    }
}
