//! The mode with one deliberate mistake: document 01's "errors a trainee will make", each as a variant that seals and opens.
//! The vectors contain wrong ciphertexts and tags from it. `adapter --mistake NAME` answers with it, to show that the runner
//! finds each mistake. Without a mistake it is the mode of `comet`; a test compares the two.

use crate::comet::{block_size, double, double_120, encipher, pad, shuffle, version_of, Version};

#[derive(Clone, Copy, PartialEq, Debug)]
pub enum Mistake {
    None,
    RotatedDoubling,
    DoubledHighHalf,
    ForgottenDoubling,
    PaddedFullBlock,
    MarkedFullBlock,
    AbsorbedCiphertext,
    ComparedFirstBytes,
    WipedLastBlock,
    MarkedEmptyMessage,
    OtherVersion,
}

/// Each mistake with its name and what it does. The first nine are document 01's; the last one swaps the rules of versions 1
/// and 2.
pub const MISTAKES: [(Mistake, &str, &str); 10] = [
    (Mistake::RotatedDoubling, "rotated-doubling", "the doubling rotates: the dropped bit comes back as bit 0"),
    (Mistake::DoubledHighHalf, "doubled-high-half", "the doubling takes the high half of Z (version 2: bytes 1 to 15)"),
    (Mistake::ForgottenDoubling, "forgotten-doubling", "the doubled Z is used for one call and not kept"),
    (Mistake::PaddedFullBlock, "padded-full-block", "a full last block is followed by a block of padding"),
    (Mistake::MarkedFullBlock, "marked-full-block", "a full last block is marked as short"),
    (Mistake::AbsorbedCiphertext, "absorbed-ciphertext", "Y absorbs the ciphertext, not the message"),
    (Mistake::ComparedFirstBytes, "compared-first-bytes", "only the first half of the tag is compared"),
    (Mistake::WipedLastBlock, "wiped-last-block", "after a wrong tag only the last block of the output is overwritten"),
    (Mistake::MarkedEmptyMessage, "marked-empty-message", "an empty message gets the mark 20"),
    (Mistake::OtherVersion, "other-version", "the suite's cipher is used with the other version of COMET"),
];

/// The mistake with this name.
pub fn named(name: &str) -> Option<Mistake> {
    MISTAKES.iter().find(|entry| entry.1 == name).map(|entry| entry.0)
}

struct Mode {
    suite: u8,
    mistake: Mistake,
    version: Version,
    y: Vec<u8>,
    z: [u8; 16],
}

fn padded(piece: &[u8], size: usize) -> Vec<u8> {
    if size == 16 {
        pad::<16>(piece).to_vec()
    } else {
        pad::<8>(piece).to_vec()
    }
}

fn shuffled(x: &[u8]) -> Vec<u8> {
    match x.try_into() {
        Ok(block) => shuffle::<16>(block).to_vec(),
        Err(_) => shuffle::<8>(x.try_into().expect("8 bytes")).to_vec(),
    }
}

fn xor(a: &[u8], b: &[u8]) -> Vec<u8> {
    a.iter().zip(b).map(|(a, b)| a ^ b).collect()
}

const LOW_120: u128 = (1 << 120) - 1;

impl Mode {
    fn start(mistake: Mistake, suite: u8, key: &[u8], nonce: &[u8]) -> Mode {
        let is_two = (version_of(suite) == Version::Two) != (mistake == Mistake::OtherVersion);
        let version = if is_two { Version::Two } else { Version::One };
        let mut z: [u8; 16] = key.try_into().expect("16 bytes");
        if block_size(suite) == 16 {
            let z = encipher(suite, &z, nonce).try_into().expect("16 bytes");
            return Mode { suite, mistake, version, y: key.to_vec(), z };
        }
        let y = encipher(suite, &z, &[0; 8]);
        z.iter_mut().zip(nonce).for_each(|(byte, n)| *byte ^= n);
        Mode { suite, mistake, version, y, z }
    }

    fn doubled(&self) -> [u8; 16] {
        let all = u128::from_le_bytes(self.z);
        let rotates = (self.mistake == Mistake::RotatedDoubling) as u128;
        let is_high = self.mistake == Mistake::DoubledHighHalf;
        let next = match (self.version, is_high) {
            (Version::One, false) => {
                let low = all as u64;
                all ^ low as u128 ^ double(low) as u128 ^ ((low >> 63) as u128 * rotates)
            }
            (Version::One, true) => (all as u64) as u128 | (double((all >> 64) as u64) as u128) << 64,
            (Version::Two, false) => {
                let low = all & LOW_120;
                all ^ low ^ double_120(low) ^ ((low >> 119) * rotates)
            }
            (Version::Two, true) => (all & 0xff) | double_120(all >> 8) << 8,
        };
        next.to_le_bytes()
    }

    fn call(&mut self, mark: u8) -> Vec<u8> {
        let (before, after) = if self.version == Version::One { (mark, 0) } else { (0, mark) };
        self.z[15] ^= before;
        let next = self.doubled();
        let x = encipher(self.suite, &next, &self.y);
        if self.mistake != Mistake::ForgottenDoubling {
            self.z = next;
        }
        self.z[15] ^= after;
        x
    }

    /// The blocks of a text with their marks.
    fn pieces<'a>(&self, text: &'a [u8], first: u8, short: u8) -> Vec<(&'a [u8], u8)> {
        let size = block_size(self.suite);
        let mut pieces: Vec<(&[u8], u8)> = text.chunks(size).map(|piece| (piece, 0)).collect();
        let is_full = pieces.last().is_some_and(|piece| piece.0.len() == size);
        if is_full && self.mistake == Mistake::PaddedFullBlock {
            pieces.push((&[], 0));
        }
        if let Some(piece) = pieces.first_mut() {
            piece.1 ^= first;
        }
        if let Some(piece) = pieces.last_mut() {
            let is_marked = piece.0.len() < size || self.mistake == Mistake::MarkedFullBlock;
            piece.1 ^= if is_marked { short } else { 0 };
        }
        pieces
    }

    fn absorb(&mut self, ad: &[u8]) {
        for (piece, mark) in self.pieces(ad, 0x08, 0x10) {
            let x = self.call(mark);
            self.y = xor(&x, &padded(piece, x.len()));
        }
    }

    fn crypt(&mut self, text: &[u8], is_message: bool) -> Vec<u8> {
        let mut out = vec![];
        for (piece, mark) in self.pieces(text, 0x20, 0x40) {
            let x = self.call(mark);
            let other = xor(piece, &shuffled(&x));
            let takes_input = is_message != (self.mistake == Mistake::AbsorbedCiphertext);
            self.y = xor(&x, &padded(if takes_input { piece } else { &other }, x.len()));
            out.extend(other);
        }
        if text.is_empty() && self.mistake == Mistake::MarkedEmptyMessage {
            self.z[15] ^= 0x20;
        }
        out
    }

    fn tag(mut self) -> Vec<u8> {
        self.z[15] ^= 0x80;
        let next = self.doubled();
        encipher(self.suite, &next, &self.y)
    }
}

fn run(mistake: Mistake, suite: u8, key: &[u8], nonce: &[u8], ad: &[u8], text: (&[u8], bool)) -> (Vec<u8>, Vec<u8>) {
    let mut mode = Mode::start(mistake, suite, key, nonce);
    mode.absorb(ad);
    let out = mode.crypt(text.0, text.1);
    (out, mode.tag())
}

/// The ciphertext and the tag of a sealer with this mistake. Every length must be right.
pub fn seal(mistake: Mistake, suite: u8, key: &[u8], nonce: &[u8], ad: &[u8], msg: &[u8]) -> (Vec<u8>, Vec<u8>) {
    run(mistake, suite, key, nonce, ad, (msg, true))
}

/// The status, 0 or 8, and the output of an opener with this mistake. Every length must be right.
#[rustfmt::skip]
pub fn open(
    mistake: Mistake, suite: u8, key: &[u8], nonce: &[u8], ad: &[u8], text: &[u8], tag: &[u8],
) -> (u32, Vec<u8>) {
    let (mut out, own) = run(mistake, suite, key, nonce, ad, (text, false));
    let compared = if mistake == Mistake::ComparedFirstBytes { tag.len() / 2 } else { tag.len() };
    if own[..compared] == tag[..compared] {
        return (0, out);
    }
    let size = block_size(suite);
    let from = if mistake == Mistake::WipedLastBlock { out.len().saturating_sub(1) / size * size } else { 0 };
    out[from..].fill(0);
    (8, out)
}

#[cfg(test)]
mod tests {
    use super::*;
    use crate::comet::{self, nonce_size, SUITES};
    use crate::random::Random;

    #[test]
    fn without_a_mistake_it_is_the_mode() {
        let mut random = Random::new(71);
        for suite in SUITES {
            for (ad, msg) in (0..34).flat_map(|ad| [0, 1, 7, 8, 9, 15, 16, 17, 32, 40].map(|msg| (ad, msg))) {
                let [key, nonce, ad, msg] = [16, nonce_size(suite), ad, msg].map(|len| random.bytes(len));
                let (text, tag) = seal(Mistake::None, suite, &key, &nonce, &ad, &msg);
                assert_eq!((text.clone(), tag.clone()), comet::specified(suite, &key, &nonce, &ad, &msg));
                assert_eq!(open(Mistake::None, suite, &key, &nonce, &ad, &text, &tag), (0, msg));
            }
        }
    }

    #[test]
    fn rotated_doubling_as_document_01_says() {
        let mut mode = Mode::start(Mistake::RotatedDoubling, 1, &[0; 16], &[0; 16]);
        mode.z = (1u128 << 63).to_le_bytes();
        assert_eq!(mode.doubled(), 0x1au128.to_le_bytes());
    }
}
