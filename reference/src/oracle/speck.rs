//! Speck-64/128 of its designers' paper: 27 rounds on two words of 32 bits.

const ROUNDS: u32 = 27;

fn word(bytes: &[u8], i: usize) -> u32 {
    u32::from_le_bytes(bytes[4 * i..4 * i + 4].try_into().unwrap())
}

/// One round: s = ((x1 rotated right by 8) + x0) XOR r, and (x0 rotated left by 3) XOR s.
fn round(x1: u32, x0: u32, r: u32) -> (u32, u32) {
    let s = x1.rotate_right(8).wrapping_add(x0) ^ r;
    (s, x0.rotate_left(3) ^ s)
}

/// The encryption of a block. The key's words are K0 to K3, byte 0 in K0. Initially R = K0 and L = (K1, K2, K3); the next L
/// and R are a round on (L, R) with the index of the round as its key.
pub fn encrypt(key: &[u8; 16], block: &[u8; 8]) -> [u8; 8] {
    let mut r = word(key, 0);
    let mut l = [word(key, 1), word(key, 2), word(key, 3)];
    let (mut x1, mut x0) = (word(block, 1), word(block, 0));
    for i in 0..ROUNDS {
        (x1, x0) = round(x1, x0, r);
        let (next_l, next_r) = round(l[0], r, i);
        l = [l[1], l[2], next_l];
        r = next_r;
    }
    let mut image = [0; 8];
    image[..4].copy_from_slice(&x0.to_le_bytes());
    image[4..].copy_from_slice(&x1.to_le_bytes());
    image
}
