//! The values in the section "Values to test against" of document 01.

use reference::comet::{double, open, pad, seal, shuffle};
use reference::data::{files, samples};
use reference::shift::{associated, check, entry, lookup, open_job};
use reference::show::unhex;

#[test]
fn doubling() {
    let values = [(0, 0), (1, 2), (1 << 63, 0x1b), (u64::MAX, 0xffff_ffff_ffff_ffe5)];
    for (x, doubled) in values {
        assert_eq!(double(x), doubled);
    }
}

/// A block of the four words (x3, x2, x1, x0).
fn block<const N: usize>(words: [u32; 4]) -> [u8; N] {
    let size = N / 4;
    std::array::from_fn(|i| words[3 - i / size].to_le_bytes()[i % size])
}

#[test]
fn shuffling() {
    assert_eq!(shuffle::<16>(&block([1, 1, 2, 3])), block([2, 3, 0x8000_0000, 1]));
    assert_eq!(shuffle::<8>(&block([1, 1, 2, 3])), block([2, 3, 0x8000, 1]));
}

#[test]
fn padding() {
    assert_eq!(pad::<8>(&[0xaa]), [0xaa, 1, 0, 0, 0, 0, 0, 0]);
    assert_eq!(pad::<8>(&[2; 7]), [2, 2, 2, 2, 2, 2, 2, 1]);
    assert_eq!(pad::<8>(&[2; 8]), [2; 8]);
}

#[test]
fn limits_of_the_sealer() {
    let (key, nonce, message) = ([0; 16], [0; 15], vec![0; 65_537]);
    let (mut out, mut tag) = (vec![0; 65_537], [0; 8]);
    assert_eq!(seal(3, &key, &nonce, &[], &message[1..], &mut out[1..], &mut tag), 0);
    assert_eq!(seal(3, &key, &nonce, &[], &message, &mut out, &mut tag), 5);
    assert_eq!(seal(3, &key, &nonce, &message, &[], &mut [], &mut tag), 4);
    assert_eq!(seal(9, &key[1..], &nonce, &[], &[], &mut [], &mut tag), 1);
}

#[test]
fn a_wrong_tag_leaves_zeros() {
    let (key, nonce) = ([7; 16], [9; 16]);
    let (mut out, mut tag, mut back) = ([0; 40], [0; 16], [5; 40]);
    assert_eq!(seal(1, &key, &nonce, b"ad", &[3; 40], &mut out, &mut tag), 0);
    assert_eq!(open(1, &key, &nonce, b"ad", &out, &tag, &mut back), 0);
    assert_eq!(back, [3; 40]);
    tag[15] ^= 1;
    assert_eq!(open(1, &key, &nonce, b"ad", &out, &tag, &mut back), 8);
    assert_eq!(back, [0; 40]);
}

/// The file with job 7, suite 3, key 0, unit 1, no message and a zero nonce; the test computes the 8 bytes of the tag.
#[test]
fn smallest_file() {
    let ring = samples::ring();
    let mut file = files::smallest();
    let mut tag = [0; 8];
    assert_eq!(seal(3, &ring[..16], &[0; 15], &[7, 0, 0, 0, 1], &[], &mut [], &mut tag), 0);
    let printed = "01000100 35000000 07000000 03000500 28000000 00000000 0000000000000000 0000000000000000 0700000001";
    assert_eq!(file, [unhex(printed), tag.to_vec()].concat());
    assert_eq!((check(&file), lookup(&file, 7), lookup(&file, 8)), ((0, 0), (0, 0), (32, 0)));
    assert_eq!(associated(&file, 7), [7, 0, 0, 0, 1]);
    assert_eq!(associated(&file, 8), []);
    assert_eq!((entry(&file, 7), entry(&file, 8)), (((0, 0), [40, 5, 45, 0]), ((32, 0), [0; 4])));
    assert_eq!(open_job(&file, &ring, 7, &mut []), (0, 0));
    assert_eq!(open_job(&file, &ring[1..], 7, &mut [0]), (2, 0));
    assert_eq!(open_job(&file, &ring, 7, &mut [0]), (6, 0));
    file[44] = 2;
    assert_eq!(open_job(&file, &ring, 7, &mut []), (8, 0));
}

#[test]
fn row_counts() {
    assert_eq!(check(&files::many_rows(512)), (0, 0));
    assert_eq!(check(&files::many_rows(513)), (22, 0));
}

#[test]
fn empty_file() {
    let file = [1, 0, 0, 0, 8, 0, 0, 0];
    assert_eq!(check(&file), (0, 0));
    assert_eq!(check(&file[..7]), (20, 0));
    assert_eq!(lookup(&file, 0), (32, 0));
}
