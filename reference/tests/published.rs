//! The ciphers against the vectors that their papers print.

use reference::data::vectors::PUBLISHED;
use reference::show::unhex;
use reference::{aes, comet};

#[test]
fn published_vectors() {
    for (source, suite, key, block, encrypted) in PUBLISHED {
        let key = unhex(key).try_into().unwrap();
        assert_eq!(comet::encipher(suite, &key, &unhex(block)), unhex(encrypted), "{source}");
    }
}

/// The S-box at the three entries of document 01, and at the five that source 000 prints wrongly.
#[test]
fn sbox_entries() {
    let document_01 = [(0x00, 0x63), (0x3a, 0x80), (0xff, 0x16)];
    let slips = [(0x07, 0xc5), (0x22, 0x93), (0x2a, 0xe5), (0xf0, 0x8c), (0xf8, 0x41)];
    for (a, image) in document_01.into_iter().chain(slips) {
        assert_eq!(aes::SBOX[a], image, "{a:02x}");
    }
}
