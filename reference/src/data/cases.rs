//! Cases for `test_comet`: calls of the sealer and the opener.

use crate::calls::{Call, Case, FILLER, REFERENCE};
use crate::comet::{block_size, fitting_tag, is_retired, made_up, nonce_size, LIMIT, SEALED, SUITES};
use crate::random::Random;

/// A sealing call with right lengths. A retired suite refuses it.
pub fn sealing(random: &mut Random, suite: u8, ad: usize, message: usize) -> Call {
    Call {
        opens: false,
        suite,
        key: random.bytes(16),
        nonce: random.bytes(nonce_size(suite)),
        ad: random.bytes(ad),
        text: random.bytes(message),
        out: message,
        tag: vec![FILLER; block_size(suite)],
    }
}

/// Pairs of lengths of associated data and message. Each length from 0 to 3 blocks + 1 comes alone and with one other length,
/// which runs through all of them. One suite of each block size and version also has all pairs up to a block + 1 (suite 5
/// some of them).
fn lengths(suite: u8) -> Vec<(usize, usize)> {
    let block = block_size(suite);
    let all = 3 * block + 2;
    let paired: Vec<usize> = match suite {
        1 | 3 | 6 => (0..block + 2).collect(),
        5 => vec![0, 1, block - 1, block, block + 1, 2 * block, 2 * block + 1],
        _ => vec![],
    };
    let alone = (0..all).flat_map(|i| [(i, 0), (0, i)]);
    let walks = (0..all).flat_map(|i| [(i, (7 * i + 3) % all), ((11 * i + 5) % all, i)]);
    let pairs = paired.iter().flat_map(|ad| paired.iter().map(move |message| (*ad, *message)));
    alone.chain(walks).chain(pairs).collect()
}

/// Every pair of lengths, sealed and opened; under a retired suite, records of the specification opened.
pub fn by_length(random: &mut Random) -> Vec<Call> {
    let mut calls = vec![];
    for suite in SUITES {
        for (ad, message) in lengths(suite) {
            let call = sealing(random, suite, ad, message);
            let reopened = call.reopened();
            if !is_retired(suite) {
                calls.push(call);
            }
            calls.push(reopened);
        }
    }
    calls
}

/// Sealing under the retired suite: 10 at every length.
pub fn retired(random: &mut Random) -> Vec<Call> {
    let lengths = [(0, 0), (5, 0), (0, 1), (8, 8), (17, 23), (0, LIMIT)];
    lengths.map(|(ad, message)| expected(sealing(random, 4, ad, message), 10)).to_vec()
}

/// Opening with one bit inverted in each byte of tag, text, associated data, nonce and key, and with the boundary between
/// associated data and text moved.
pub fn damaged(random: &mut Random) -> Vec<Call> {
    let mut calls = vec![];
    for suite in SUITES {
        let block = block_size(suite);
        let good = sealing(random, suite, block + 1, 2 * block + 3).reopened();
        let parts: [fn(&mut Call) -> &mut Vec<u8>; 5] =
            [|c| &mut c.tag, |c| &mut c.text, |c| &mut c.ad, |c| &mut c.nonce, |c| &mut c.key];
        for part in parts {
            for index in 0..part(&mut good.clone()).len() {
                let mut call = good.clone();
                part(&mut call)[index] ^= 1 << random.below(8);
                calls.push(call);
            }
        }
        let mut moved = good.clone();
        moved.ad.push(moved.text.remove(0));
        moved.out -= 1;
        calls.push(moved);
        let mut shorter = good;
        shorter.text.pop();
        shorter.out -= 1;
        calls.push(shorter);
    }
    calls
}

/// Gives a call the fault of one status; `kind` chooses among its variants.
pub fn fault(call: &mut Call, status: u32, kind: usize) {
    let other = |length: usize, lengths: &[usize]| {
        let others: Vec<usize> = lengths.iter().copied().filter(|other| *other != length).collect();
        others[kind % others.len()]
    };
    let resize = |bytes: &mut Vec<u8>, lengths: &[usize]| bytes.resize(other(bytes.len(), lengths), FILLER);
    let block = block_size(call.suite);
    match status {
        1 => call.suite = [0, 7, 255, 8, 128][kind % 5],
        2 => resize(&mut call.key, &[15, 17, 0, 1, 8, 32, 40]),
        3 => resize(&mut call.nonce, &[15, 16, 14, 17, 0, 8, 40]),
        4 => call.ad = vec![0; LIMIT + 1],
        5 => {
            if call.out == call.text.len() {
                call.out = LIMIT + 1;
            }
            call.text = vec![0; LIMIT + 1];
        }
        6 => call.out = other(call.out, &[call.out + 1, call.out.max(1) - 1, 0, LIMIT, LIMIT + 4]),
        7 => resize(&mut call.tag, &[8, 16, 0, block.max(1) - 1, block + 1, 40]),
        8 => call.tag[kind % block] ^= 0x80,
        10 => call.suite = 4,
        _ => unreachable!("no fault {status}"),
    }
}

/// A sealing or opening call with a nonempty message, to which faults are added.
fn subject(random: &mut Random, suite: u8, opens: bool) -> Call {
    let message = 3 + random.below(20);
    let call = sealing(random, suite, 5, message);
    if opens {
        call.reopened()
    } else {
        call
    }
}

/// The call, after a check that it returns the expected status.
fn expected(call: Call, status: u32) -> Call {
    assert_eq!(call.answer(&REFERENCE).number, status);
    call
}

/// The statuses of the sealer and of the opener in their order, except those of a long input.
const FAULTS: [[u32; 6]; 2] = [[1, 10, 2, 3, 6, 7], [1, 2, 3, 6, 7, 8]];

/// Each status alone in all variants, and in pairs with each later one, except those of a long input.
pub fn refused(random: &mut Random) -> Vec<Call> {
    let mut calls = vec![];
    for suite in SUITES {
        for opens in [false, true].into_iter().filter(|opens| *opens || !is_retired(suite)) {
            let faults = FAULTS[opens as usize];
            for (i, first) in faults.iter().enumerate() {
                for kind in 0..6 {
                    let mut call = subject(random, suite, opens);
                    fault(&mut call, *first, kind);
                    calls.push(expected(call, *first));
                }
                for later in &faults[i + 1..] {
                    let mut call = subject(random, suite, opens);
                    let kind = random.below(5);
                    fault(&mut call, *later, kind);
                    fault(&mut call, *first, kind);
                    calls.push(expected(call, *first));
                }
            }
        }
    }
    calls
}

/// One byte over the limits: 4 and 5 alone, with each earlier status, and with all later ones at once. Long inputs are
/// costly here, and one call is enough: an implementation that checks any later condition first returns another status.
pub fn too_long(random: &mut Random) -> Vec<Call> {
    let groups: [(bool, &[u32]); 12] = [
        (false, &[4]),
        (false, &[5]),
        (true, &[4, 5, 6, 7, 8]),
        (true, &[5, 6, 7, 8]),
        (false, &[1, 4]),
        (true, &[1, 5]),
        (true, &[2, 4]),
        (false, &[2, 5]),
        (false, &[3, 4]),
        (true, &[3, 5]),
        (false, &[10, 4]),
        (false, &[10, 5]),
    ];
    let mut calls = vec![];
    for (index, (opens, faults)) in groups.into_iter().enumerate() {
        let suite = if opens { SUITES[index % SUITES.len()] } else { SEALED[index % SEALED.len()] };
        let mut call = sealing(random, suite, 5, 0);
        if opens {
            call = call.reopened();
        }
        for status in faults.iter().rev() {
            fault(&mut call, *status, index);
        }
        calls.push(expected(call, faults[0]));
    }
    calls
}

/// Two records whose associated data differ in two blocks and whose tags are equal: demand 3 does not cover such changes.
/// Both are sealed, and the first one is opened with the associated data of the second.
pub fn two_blocks(random: &mut Random) -> Vec<Call> {
    let mut calls = vec![];
    for suite in SUITES {
        let call = sealing(random, suite, 2 * block_size(suite), 5);
        let ad = made_up(suite, &call.key, &call.nonce, &call.ad);
        assert_ne!(ad, call.ad);
        let other = Call { ad: ad.clone(), ..call.clone() };
        assert_eq!(call.answer(&REFERENCE), other.answer(&REFERENCE));
        let opened = Call { ad, ..call.reopened() };
        if !is_retired(suite) {
            calls.extend([call, other]);
        }
        calls.push(expected(opened, 0));
    }
    calls
}

/// A long byte string that compresses well.
fn pattern(length: usize) -> Vec<u8> {
    (0..length).map(|i| (i % 251) as u8).collect()
}

/// At the limits: 65,536 bytes of message sealed under each suite, 65,536 zero bytes of ciphertext opened under their tag,
/// 65,536 bytes of associated data.
pub fn longest(random: &mut Random) -> Vec<Call> {
    let mut calls = vec![];
    for suite in SUITES {
        let mut call = sealing(random, suite, 5, 0);
        (call.text, call.out) = (pattern(LIMIT), LIMIT);
        if !is_retired(suite) {
            calls.push(call.clone());
        }
        call.opens = true;
        call.text = vec![0; LIMIT];
        call.tag = fitting_tag(suite, &call.key, &call.nonce, &call.ad, &call.text);
        calls.push(call);
    }
    let mut call = sealing(random, 2, 0, 9);
    call.ad = pattern(LIMIT);
    calls.push(call);
    calls
}

/// All calls of the test data.
pub fn calls() -> Vec<Call> {
    let mut random = Random::new(2);
    let groups = [by_length, damaged, retired, refused, too_long, two_blocks, longest];
    groups.into_iter().flat_map(|group| group(&mut random)).collect()
}
