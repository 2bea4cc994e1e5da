//! Sealing and opening in place, and verifying: their statuses, and text and tag after the call.

use reference::calls::FILLER;
use reference::comet::{
    block_size, nonce_size, open_in_place, seal, seal_in_place, specified, verify, LIMIT, SEALED, SUITES,
};

const KEY: [u8; 16] = [7; 16];

fn nonce(suite: u8) -> Vec<u8> {
    vec![9; nonce_size(suite)]
}

/// Lengths around block boundaries, and the greatest length.
fn lengths(suite: u8) -> [usize; 8] {
    let n = block_size(suite);
    [0, 1, n - 1, n, n + 1, 3 * n + 2, LIMIT - 1, LIMIT]
}

fn message(length: usize) -> Vec<u8> {
    (0..length).map(|i| (i * i / 5) as u8).collect()
}

#[test]
fn as_from_buffer_to_buffer() {
    for (suite, length) in SEALED.into_iter().flat_map(|suite| lengths(suite).map(|length| (suite, length))) {
        let (msg, n) = (message(length), block_size(suite));
        let (mut out, mut tag) = (vec![0; length], vec![0; n]);
        assert_eq!(seal(suite, &KEY, &nonce(suite), b"ad", &msg, &mut out, &mut tag), 0);
        let (mut text, mut made) = (msg.clone(), vec![FILLER; n]);
        assert_eq!(seal_in_place(suite, &KEY, &nonce(suite), b"ad", &mut text, &mut made), 0);
        assert_eq!((text, made), (out, tag));
    }
}

#[test]
fn opened_and_verified() {
    for (suite, length) in SUITES.into_iter().flat_map(|suite| lengths(suite).map(|length| (suite, length))) {
        let msg = message(length);
        let (sealed, mut tag) = specified(suite, &KEY, &nonce(suite), b"ad", &msg);
        let mut text = sealed.clone();
        assert_eq!(verify(suite, &KEY, &nonce(suite), b"ad", &text, &tag), 0);
        assert_eq!(open_in_place(suite, &KEY, &nonce(suite), b"ad", &mut text, &tag), 0);
        assert_eq!(text, msg);
        let mut text = sealed;
        *tag.last_mut().unwrap() ^= 0x80;
        assert_eq!(verify(suite, &KEY, &nonce(suite), b"ad", &text, &tag), 8);
        assert_eq!(open_in_place(suite, &KEY, &nonce(suite), b"ad", &mut text, &tag), 8);
        assert_eq!(text, vec![0; length]);
    }
}

/// A change of the last byte of a text of one or many blocks is detected.
#[test]
fn the_last_block_counts() {
    for (suite, length) in
        SUITES.into_iter().flat_map(|suite| lengths(suite)[1..].to_vec().into_iter().map(move |l| (suite, l)))
    {
        let (mut text, tag) = specified(suite, &KEY, &nonce(suite), b"", &message(length));
        text[length - 1] ^= 1;
        assert_eq!(verify(suite, &KEY, &nonce(suite), b"", &text, &tag), 8);
    }
}

/// The statuses in their order, each together with every later one; text and tag are unchanged.
#[test]
fn refusals() {
    let long = vec![3; LIMIT + 1];
    let short = vec![3; 20];
    let all: [(u8, usize, usize, bool, bool, usize); 6] = [
        (7, 15, 14, true, true, 9),
        (3, 15, 14, true, true, 9),
        (3, 16, 14, true, true, 9),
        (3, 16, 15, true, true, 9),
        (3, 16, 15, false, true, 9),
        (3, 16, 15, false, false, 9),
    ];
    for ((suite, key, nonce, long_ad, long_text, tag), status) in all.into_iter().zip([1, 2, 3, 4, 5, 7]) {
        let (key, nonce, tag) = (vec![7; key], vec![9; nonce], vec![FILLER; tag]);
        let ad = if long_ad { &long } else { &short };
        let before = if long_text { &long } else { &short };
        let (mut text, mut made) = (before.clone(), tag.clone());
        assert_eq!(seal_in_place(suite, &key, &nonce, ad, &mut text, &mut made), status);
        assert_eq!(open_in_place(suite, &key, &nonce, ad, &mut text, &tag), status);
        assert_eq!(verify(suite, &key, &nonce, ad, &text, &tag), status);
        assert_eq!((&text, made), (before, tag));
    }
}

/// Suite 4 is opened and verified but not sealed: 10 comes just after 1.
#[test]
fn the_retired_suite() {
    let (mut text, mut tag) = (message(20), vec![FILLER; 9]);
    assert_eq!(seal_in_place(4, &[], &[], &[], &mut text, &mut tag), 10);
    assert_eq!((text, tag), (message(20), vec![FILLER; 9]));
    let (mut text, tag) = specified(4, &KEY, &nonce(4), b"ad", &message(20));
    assert_eq!(verify(4, &KEY, &nonce(4), b"ad", &text, &tag), 0);
    assert_eq!(open_in_place(4, &KEY, &nonce(4), b"ad", &mut text, &tag), 0);
    assert_eq!(text, message(20));
}
