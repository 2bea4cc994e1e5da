//! COMET versions 1 and 2 over the four ciphers: the sealer and the opener, with the statuses of document 01.

use std::cell::Cell;

/// The greatest length of associated data, message and ciphertext.
pub const LIMIT: usize = 65_536;

pub const SUITES: [u8; 6] = [1, 2, 3, 4, 5, 6];

/// The suites that the sealer accepts. Suite 4 is retired (document 02, W7): its records can only be opened.
pub const SEALED: [u8; 5] = [1, 2, 3, 5, 6];

/// Whether records of the suite are opened but no longer sealed.
pub fn is_retired(suite: u8) -> bool {
    SUITES.contains(&suite) && !SEALED.contains(&suite)
}

/// The number of bytes of a block and of a tag; 0 if there is no such suite.
pub fn block_size(suite: u8) -> usize {
    match suite {
        1 | 2 | 5 => 16,
        3 | 4 | 6 => 8,
        _ => 0,
    }
}

/// Version 2 (source 004, section 7.2) differs from version 1 in two things: how the next block key is computed (Psi), and
/// when the marks are added (Delta).
#[derive(Clone, Copy, PartialEq)]
pub enum Version {
    One,
    Two,
}

/// Suites 5 and 6 are version 2 over AES-128 and Speck-64/128 (document 02, W9).
pub fn version_of(suite: u8) -> Version {
    if [5, 6].contains(&suite) {
        Version::Two
    } else {
        Version::One
    }
}

pub fn nonce_size(suite: u8) -> usize {
    if block_size(suite) == 16 {
        16
    } else {
        15
    }
}

/// Doubling in GF(2^64): a left shift, then XOR 0x1b if the bit shifted out was 1.
pub fn double(x: u64) -> u64 {
    (x << 1) ^ ((x >> 63) * 0x1b)
}

/// Doubling in GF(2^120) modulo x^120 + x^9 + x^6 + x^2 + 1, for x below 2^120.
pub fn double_120(x: u128) -> u128 {
    ((x << 1) & ((1 << 120) - 1)) ^ ((x >> 119) * 0x245)
}

/// The piece padded to a block: a short one is followed by byte 01 and zero bytes, a full one is unchanged.
pub fn pad<const N: usize>(piece: &[u8]) -> [u8; N] {
    let mut block = [0; N];
    block[..piece.len()].copy_from_slice(piece);
    if piece.len() < N {
        block[piece.len()] = 1;
    }
    block
}

/// Maps (X3, X2, X1, X0) to (X1, X0, X2 rotated right by 1, X3); a word is a quarter of the block.
pub fn shuffle<const N: usize>(x: &[u8; N]) -> [u8; N] {
    let size = N / 4;
    let word = |i: usize| &x[size * i..size * (i + 1)];
    let mut shuffled = [0; N];
    shuffled[..size].copy_from_slice(word(3));
    for i in 0..size {
        shuffled[size + i] = (word(2)[i] >> 1) | (word(2)[(i + 1) % size] << 7);
    }
    shuffled[2 * size..3 * size].copy_from_slice(word(0));
    shuffled[3 * size..].copy_from_slice(word(1));
    shuffled
}

fn xor<const N: usize>(a: [u8; N], b: [u8; N]) -> [u8; N] {
    std::array::from_fn(|i| a[i] ^ b[i])
}

/// What the text of a call is: the sealer's message, or the opener's ciphertext.
#[derive(Clone, Copy, PartialEq)]
pub(crate) enum Text {
    Message,
    Ciphertext,
}

/// A block cipher over blocks of N bytes, encryption only.
pub(crate) trait Cipher<const N: usize>: Fn(&[u8; 16], &[u8; N]) -> [u8; N] {}

impl<const N: usize, E: Fn(&[u8; 16], &[u8; N]) -> [u8; N]> Cipher<N> for E {}

/// Calls a function with the suite's cipher and the other arguments.
macro_rules! by_suite {
    ($suite:expr, $function:ident($($argument:expr),*)) => {
        match $suite {
            1 | 5 => $function($crate::aes::encrypt, $($argument),*),
            2 => $function($crate::cham::cham128::encrypt, $($argument),*),
            3 | 6 => $function($crate::speck::encrypt, $($argument),*),
            4 => $function($crate::cham::cham64::encrypt, $($argument),*),
            suite => panic!("no suite {suite}"),
        }
    };
}

pub(crate) use by_suite;

/// The state of the mode: Y, Z, the version and the cipher.
pub(crate) struct State<const N: usize, E> {
    pub y: [u8; N],
    pub z: [u8; 16],
    pub version: Version,
    pub encrypt: E,
}

impl<const N: usize, E: Cipher<N>> State<N, E> {
    /// The initial state. COMET-128: Y is the key, Z the encryption of the nonce. COMET-64: Y is the encryption of the zero
    /// block, Z the key XOR the nonce.
    pub fn start(encrypt: E, version: Version, key: &[u8], nonce: &[u8]) -> Self {
        let mut z: [u8; 16] = key.try_into().unwrap();
        if N == 16 {
            let encrypted = encrypt(&z, nonce.try_into().unwrap());
            return State { y: key.try_into().unwrap(), z: encrypted[..].try_into().unwrap(), version, encrypt };
        }
        let y = encrypt(&z, &[0; N]);
        for (byte, n) in z.iter_mut().zip(nonce) {
            *byte ^= n;
        }
        State { y, z, version, encrypt }
    }

    /// Replaces Z by the next block key: version 1 doubles the low half of Z, version 2 all but byte 15.
    fn next_key(&mut self) {
        match self.version {
            Version::One => {
                let low = u64::from_le_bytes(self.z[..8].try_into().unwrap());
                self.z[..8].copy_from_slice(&double(low).to_le_bytes());
            }
            Version::Two => {
                let all = u128::from_le_bytes(self.z);
                let low = all & ((1 << 120) - 1);
                self.z = (all ^ low ^ double_120(low)).to_le_bytes();
            }
        }
    }

    /// One cipher call: adds the mark to byte 15 of Z, computes the next block key, and returns E(Z, Y).
    fn call(&mut self, mark: u8) -> [u8; N] {
        self.z[15] ^= mark;
        self.next_key();
        (self.encrypt)(&self.z, &self.y)
    }

    /// The cipher call of a block with a mark. Version 1 adds the mark before this call, version 2 after it, so that it
    /// takes effect with the next call.
    fn marked_call(&mut self, mark: u8) -> [u8; N] {
        let (before, after) = if self.version == Version::One { (mark, 0) } else { (0, mark) };
        let x = self.call(before);
        self.z[15] ^= after;
        x
    }

    /// Absorbs blocks of associated data; `begins` if they start with the record's first block.
    pub fn absorb(&mut self, begins: bool, ad: &[u8]) {
        for (index, piece) in ad.chunks(N).enumerate() {
            let first = if begins && index == 0 { 0x08 } else { 0 };
            let short = if piece.len() < N { 0x10 } else { 0 };
            let x = self.marked_call(first ^ short);
            self.y = xor(x, pad(piece));
        }
    }

    /// Encrypts or decrypts blocks of text into `out` in the same way. Both directions absorb the message.
    pub fn crypt(&mut self, kind: Text, begins: bool, text: &[u8], out: &mut [u8]) {
        for (index, (piece, to)) in text.chunks(N).zip(out.chunks_mut(N)).enumerate() {
            let first = if begins && index == 0 { 0x20 } else { 0 };
            let short = if piece.len() < N { 0x40 } else { 0 };
            let x = self.marked_call(first ^ short);
            let stream = shuffle(&x);
            for i in 0..piece.len() {
                to[i] = piece[i] ^ stream[i];
            }
            let message: &[u8] = if kind == Text::Message { piece } else { to };
            self.y = xor(x, pad(message));
        }
    }

    pub fn tag(mut self) -> [u8; N] {
        self.call(0x80)
    }
}

/// The same cipher, which also adds 1 to `calls` at each call.
fn counting<'a, const N: usize>(encrypt: impl Cipher<N> + 'a, calls: &'a Cell<u64>) -> impl Cipher<N> + 'a {
    move |key: &[u8; 16], block: &[u8; N]| {
        calls.set(calls.get() + 1);
        encrypt(key, block)
    }
}

/// Seals or opens a whole record over a cipher; returns its tag and the number of cipher calls.
#[rustfmt::skip]
fn record<const N: usize>(
    encrypt: impl Cipher<N>, (version, kind): (Version, Text), key: &[u8], nonce: &[u8], ad: &[u8], text: &[u8], out: &mut [u8],
) -> (Vec<u8>, u64) {
    let calls = Cell::new(0);
    let mut state = State::start(counting(encrypt, &calls), version, key, nonce);
    state.absorb(true, ad);
    state.crypt(kind, true, text, out);
    let tag = state.tag().to_vec();
    (tag, calls.get())
}

/// Seals or opens a record whose lengths were checked; returns its tag and the number of cipher calls.
fn run(suite: u8, kind: Text, key: &[u8], nonce: &[u8], ad: &[u8], text: &[u8], out: &mut [u8]) -> (Vec<u8>, u64) {
    by_suite!(suite, record((version_of(suite), kind), key, nonce, ad, text, out))
}

/// The lengths of a call's arguments.
struct Lengths {
    key: usize,
    nonce: usize,
    ad: usize,
    text: usize,
    out: usize,
    tag: usize,
}

/// The first status of the table whose condition holds, or 0.
pub fn first(table: &[(u32, bool)]) -> u32 {
    table.iter().find(|(_, applies)| *applies).map_or(0, |(status, _)| *status)
}

/// The first of statuses 1 to 7 that applies, or 0; the sealer also has 10, just after 1.
fn refusal(kind: Text, suite: u8, l: Lengths) -> u32 {
    first(&[
        (1, block_size(suite) == 0),
        (10, kind == Text::Message && is_retired(suite)),
        (2, l.key != 16),
        (3, l.nonce != nonce_size(suite)),
        (4, l.ad > LIMIT),
        (5, l.text > LIMIT),
        (6, l.out != l.text),
        (7, l.tag != block_size(suite)),
    ])
}

/// Seals a message: writes the ciphertext to `out` and the tag to `tag`. On a refusal both are unchanged.
pub fn seal(suite: u8, key: &[u8], nonce: &[u8], ad: &[u8], msg: &[u8], out: &mut [u8], tag: &mut [u8]) -> u32 {
    seal_counted(suite, key, nonce, ad, msg, out, tag).0
}

/// The same, and the number of cipher calls (document 02, W12), 0 on a refusal.
#[rustfmt::skip]
pub fn seal_counted(
    suite: u8, key: &[u8], nonce: &[u8], ad: &[u8], msg: &[u8], out: &mut [u8], tag: &mut [u8],
) -> (u32, u64) {
    let status = refusal(
        Text::Message,
        suite,
        Lengths { key: key.len(), nonce: nonce.len(), ad: ad.len(), text: msg.len(), out: out.len(), tag: tag.len() },
    );
    if status != 0 {
        return (status, 0);
    }
    let (made, calls) = run(suite, Text::Message, key, nonce, ad, msg, out);
    tag.copy_from_slice(&made);
    (0, calls)
}

/// Opens a ciphertext into `out`. On 8 every byte of `out` is 0; on another refusal it is unchanged.
pub fn open(suite: u8, key: &[u8], nonce: &[u8], ad: &[u8], text: &[u8], tag: &[u8], out: &mut [u8]) -> u32 {
    open_counted(suite, key, nonce, ad, text, tag, out).0
}

/// The same, and the number of cipher calls: after 8 the same as after 0, after another refusal 0.
#[rustfmt::skip]
pub fn open_counted(
    suite: u8, key: &[u8], nonce: &[u8], ad: &[u8], text: &[u8], tag: &[u8], out: &mut [u8],
) -> (u32, u64) {
    let status = refusal(
        Text::Ciphertext,
        suite,
        Lengths { key: key.len(), nonce: nonce.len(), ad: ad.len(), text: text.len(), out: out.len(), tag: tag.len() },
    );
    if status != 0 {
        return (status, 0);
    }
    let (made, calls) = run(suite, Text::Ciphertext, key, nonce, ad, text, out);
    if made != tag {
        out.fill(0);
        return (8, calls);
    }
    (0, calls)
}

/// Seals a text in place: `seal` with an output of the text's length, so 6 cannot occur. On a refusal text and tag are
/// unchanged.
pub fn seal_in_place(suite: u8, key: &[u8], nonce: &[u8], ad: &[u8], text: &mut [u8], tag: &mut [u8]) -> u32 {
    let msg = text.to_vec();
    seal(suite, key, nonce, ad, &msg, text, tag)
}

/// Opens a text in place in the same way. On 8 every byte of it is 0; on another refusal it is unchanged.
pub fn open_in_place(suite: u8, key: &[u8], nonce: &[u8], ad: &[u8], text: &mut [u8], tag: &[u8]) -> u32 {
    let sealed = text.to_vec();
    open(suite, key, nonce, ad, &sealed, tag, text)
}

/// The status that `open` returns with an output of the text's length; the message is discarded.
pub fn verify(suite: u8, key: &[u8], nonce: &[u8], ad: &[u8], text: &[u8], tag: &[u8]) -> u32 {
    open(suite, key, nonce, ad, text, tag, &mut vec![0; text.len()])
}

/// The specification's ciphertext and tag of a message, also under a retired suite. Every length must be right.
pub fn specified(suite: u8, key: &[u8], nonce: &[u8], ad: &[u8], msg: &[u8]) -> (Vec<u8>, Vec<u8>) {
    let mut text = vec![0; msg.len()];
    let (tag, _) = run(suite, Text::Message, key, nonce, ad, msg, &mut text);
    (text, tag)
}

/// The tag under which a ciphertext opens. Every length must be right.
pub fn fitting_tag(suite: u8, key: &[u8], nonce: &[u8], ad: &[u8], text: &[u8]) -> Vec<u8> {
    run(suite, Text::Ciphertext, key, nonce, ad, text, &mut vec![0; text.len()]).0
}

/// Other associated data of two full blocks with the same tag: the first block differs, and the second compensates for it.
/// Whoever knows the key can compute this, so no detection is claimed for changes in two blocks.
pub fn made_up(suite: u8, key: &[u8], nonce: &[u8], ad: &[u8]) -> Vec<u8> {
    by_suite!(suite, made_up_with(version_of(suite), key, nonce, ad))
}

/// Inverts one bit of the first block, and changes the second so that Y is the same after it.
fn made_up_with<const N: usize>(
    encrypt: impl Cipher<N>,
    version: Version,
    key: &[u8],
    nonce: &[u8],
    ad: &[u8],
) -> Vec<u8> {
    let first: [u8; N] = ad[..N].try_into().unwrap();
    let mut other = first;
    other[0] ^= 1;
    let mut state = State::start(encrypt, version, key, nonce);
    let x = state.marked_call(0x08);
    let z = state.z;
    let seconds = [first, other].map(|block| {
        (state.y, state.z) = (xor(x, block), z);
        state.marked_call(0)
    });
    let second = xor(ad[N..].try_into().unwrap(), xor(seconds[0], seconds[1]));
    [other, second].concat()
}

fn image<const N: usize>(encrypt: impl Cipher<N>, key: &[u8; 16], block: &[u8]) -> Vec<u8> {
    encrypt(key, block.try_into().unwrap()).to_vec()
}

/// The encryption of one block under the suite's cipher.
pub fn encipher(suite: u8, key: &[u8; 16], block: &[u8]) -> Vec<u8> {
    by_suite!(suite, image(key, block))
}

#[cfg(test)]
mod tests {
    use super::*;
    use std::cell::RefCell;

    /// The mark that is added before each cipher call, under a cipher that returns zeros: the change of byte 15 of Z.
    fn marks<const N: usize>(version: Version, ad: usize, message: usize) -> Vec<u8> {
        let seen = RefCell::new(vec![]);
        let encrypt = |z: &[u8; 16], _: &[u8; N]| {
            let before: u8 = seen.borrow().iter().fold(0, |sum, mark| sum ^ mark);
            seen.borrow_mut().push(before ^ z[15]);
            [0; N]
        };
        let mut state = State { y: [0; N], z: [0; 16], version, encrypt };
        state.absorb(true, &vec![0; ad]);
        state.crypt(Text::Message, true, &vec![0; message], &mut vec![0; message]);
        state.tag();
        seen.into_inner()
    }

    #[test]
    fn marks_by_length() {
        let marks_128 = |ad, message| marks::<16>(Version::One, ad, message);
        let marks_64 = |ad, message| marks::<8>(Version::One, ad, message);
        assert_eq!(marks_128(17, 0), [0x08, 0x10, 0x80]);
        assert_eq!(marks_128(0, 0), [0x80]);
        assert_eq!(marks_128(16, 16), [0x08, 0x20, 0x80]);
        assert_eq!(marks_64(1, 1), [0x18, 0x60, 0x80]);
        assert_eq!(marks_64(24, 17), [0x08, 0, 0, 0x20, 0, 0x40, 0x80]);
    }

    /// In version 2 each mark except the tag's comes one call later.
    #[test]
    fn marks_of_version_2() {
        let marks_128 = |ad, message| marks::<16>(Version::Two, ad, message);
        let marks_64 = |ad, message| marks::<8>(Version::Two, ad, message);
        assert_eq!(marks_128(17, 0), [0, 0x08, 0x90]);
        assert_eq!(marks_128(0, 0), [0x80]);
        assert_eq!(marks_128(16, 0), [0, 0x88]);
        assert_eq!(marks_128(5, 0), [0, 0x98]);
        assert_eq!(marks_128(16, 16), [0, 0x08, 0xa0]);
        assert_eq!(marks_64(1, 1), [0, 0x18, 0xe0]);
        assert_eq!(marks_64(24, 17), [0, 0x08, 0, 0, 0x20, 0, 0xc0]);
    }

    /// The cipher outputs of an opening's message blocks, and its tag, under the identity as the cipher. A change then
    /// propagates unmixed, so that undetected changes (document 02, W13) can be constructed.
    fn opened(ad: &[u8], text: &[u8]) -> (Vec<[u8; 8]>, [u8; 8]) {
        let seen = RefCell::new(vec![]);
        let encrypt = |_: &[u8; 16], y: &[u8; 8]| {
            seen.borrow_mut().push(*y);
            *y
        };
        let mut state = State { y: [5; 8], z: [0; 16], version: Version::One, encrypt };
        state.absorb(true, ad);
        let before = seen.borrow().len();
        state.crypt(Text::Ciphertext, true, text, &mut vec![0; text.len()]);
        let after = seen.borrow().len();
        let tag = state.tag();
        let outputs = seen.borrow()[before..after].to_vec();
        (outputs, tag)
    }

    /// A preimage of a block under shuffle XOR identity, if it has one. The map is linear and its kernel is all zeros and
    /// all ones, so the only other preimage is the complement.
    fn preimage(block: u64) -> Option<u64> {
        let image = |x: u64| x ^ u64::from_le_bytes(shuffle(&x.to_le_bytes()));
        let mut rows: Vec<(u64, u64)> = vec![];
        let reduced = |rows: &[(u64, u64)], pair: (u64, u64)| {
            rows.iter().fold(pair, |(x, y), (from, to)| if y ^ to < y { (x ^ from, y ^ to) } else { (x, y) })
        };
        for bit in 0..64 {
            let (x, y) = reduced(&rows, (1 << bit, image(1 << bit)));
            if y == 0 {
                assert_eq!(x, u64::MAX);
            } else {
                rows.push((x, y));
                rows.sort_by_key(|row| std::cmp::Reverse(row.1));
            }
        }
        assert_eq!(rows.len(), 63);
        let (x, rest) = reduced(&rows, (0, block));
        (rest == 0).then_some(x)
    }

    /// A change inside one block of associated data or of ciphertext, followed by full message blocks only, is accepted
    /// exactly if the cipher outputs of the two openings are complements at some later message block.
    #[test]
    fn when_a_change_slips_through() {
        let mut changes = vec![1, 0x8000_0000_0000_0000, 0x0123_4567_89ab_cdef, u64::MAX];
        while let Some(before) = preimage(*changes.last().unwrap()) {
            changes.push(before);
        }
        let (ad, text): (Vec<u8>, Vec<u8>) = ((0..16).collect(), (100..140).collect());
        let (outputs, tag) = opened(&ad, &text);
        let mut accepted = 0;
        for (change, index) in changes.iter().flat_map(|change| (0..7).map(move |index| (change, index))) {
            let (mut other_ad, mut other_text) = (ad.clone(), text.clone());
            let block =
                if index < 2 { &mut other_ad[8 * index..][..8] } else { &mut other_text[8 * (index - 2)..][..8] };
            block.iter_mut().zip(change.to_le_bytes()).for_each(|(byte, x)| *byte ^= x);
            let (others, other_tag) = opened(&other_ad, &other_text);
            let later = if index < 2 { 0 } else { index - 1 };
            let are_complements = |t: usize| outputs[t].iter().zip(&others[t]).all(|(x, other)| *x == !*other);
            assert_eq!(other_tag == tag, (later..5).any(are_complements));
            accepted += (other_tag == tag) as u32;
        }
        assert!(accepted >= 6);
    }
}
