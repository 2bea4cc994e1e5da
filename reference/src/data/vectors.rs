//! Cases for `test_ciphers`: blocks and their encryptions.

use super::Part;
use crate::comet;
use crate::random::Random;
use crate::show::{hex, unhex};

/// The vectors that the ciphers' papers print: source, suite, key, block, encryption. The words of the Speck and CHAM papers
/// are written here little-endian, word 0 first.
pub const PUBLISHED: [(&str, u8, &str, &str, &str); 5] = [
    (
        "FIPS 197, appendix B",
        1,
        "2b7e151628aed2a6abf7158809cf4f3c",
        "3243f6a8885a308d313198a2e0370734",
        "3925841d02dc09fbdc118597196a0b32",
    ),
    (
        "FIPS 197, appendix C.1",
        1,
        "000102030405060708090a0b0c0d0e0f",
        "00112233445566778899aabbccddeeff",
        "69c4e0d86a7b0430d8cdb78070b4c55a",
    ),
    (
        "CHAM paper, CHAM-128/128: 33221100 77665544 bbaa9988 ffeeddcc to c3746034 b55700c5 8d64ec32 489332f7",
        2,
        "000102030405060708090a0b0c0d0e0f",
        "00112233445566778899aabbccddeeff",
        "346074c3 c50057b5 32ec648d f7329348",
    ),
    (
        "Speck paper, Speck-64/128: key 1b1a1918 13121110 0b0a0908 03020100, 3b726574 7475432d to 8c6fa548 454e028b",
        3,
        "00010203 08090a0b 10111213 18191a1b",
        "2d437574 7465723b",
        "8b024e45 48a56f8c",
    ),
    (
        "CHAM paper, CHAM-64/128: 1100 3322 5544 7766 to 453c 63bc dcfa bf4e",
        4,
        "000102030405060708090a0b0c0d0e0f",
        "0011 2233 4455 6677",
        "3c45 bc63 fadc 4ebf",
    ),
];

const RANDOM_OF_EACH: usize = 300;

/// The published vectors, then random ones of each suite.
pub fn parts() -> [Part; 2] {
    let mut random = Random::new(1);
    let mut records: Vec<(u8, Vec<u8>, Vec<u8>)> =
        PUBLISHED.iter().map(|(_, suite, key, block, _)| (*suite, unhex(key), unhex(block))).collect();
    for suite in 1..=4 {
        for _ in 0..RANDOM_OF_EACH {
            records.push((suite, random.bytes(16), random.bytes(comet::block_size(suite))));
        }
    }
    let mut stdin = vec![];
    let mut stdout = String::new();
    for (suite, key, block) in records {
        let image = comet::encipher(suite, key[..].try_into().unwrap(), &block);
        stdin.push(suite);
        stdin.extend(key);
        stdin.extend(block);
        // the program encrypts suite 1 with both AES implementations: the plain one and the one by columns
        stdout += &format!("{}\n", hex(&image)).repeat(if suite == 1 { 2 } else { 1 });
    }
    [("stdin", stdin), ("stdout", stdout.into_bytes())]
}
