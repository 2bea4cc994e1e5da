//! AES-128, encryption only, in the steps of FIPS 197. Byte r + 4c of a block is row r of column c.

/// The product with x in GF(2^8), modulo x^8 + x^4 + x^3 + x + 1 (FIPS 197, section 4.2.1).
const fn xtime(a: u8) -> u8 {
    (a << 1) ^ ((a >> 7) * 0x1b)
}

/// The product in GF(2^8) (FIPS 197, section 4.2).
const fn times(mut a: u8, mut b: u8) -> u8 {
    let mut product = 0;
    while b != 0 {
        if b & 1 == 1 {
            product ^= a;
        }
        a = xtime(a);
        b >>= 1;
    }
    product
}

/// The inverse of a in GF(2^8), and 0 for 0. It is a^254, since a^255 = 1 for every a other than 0.
const fn inverse(a: u8) -> u8 {
    let mut power = 1;
    let mut step = 0;
    while step < 254 {
        power = times(power, a);
        step += 1;
    }
    power
}

/// The affine map (FIPS 197, section 5.1.1): bit i is the sum of bits i, i+4, i+5, i+6, i+7 and of 0x63's bit i.
const fn affine(b: u8) -> u8 {
    b ^ b.rotate_left(1) ^ b.rotate_left(2) ^ b.rotate_left(3) ^ b.rotate_left(4) ^ 0x63
}

const fn sbox() -> [u8; 256] {
    let mut table = [0; 256];
    let mut a = 0;
    while a < 256 {
        table[a] = affine(inverse(a as u8));
        a += 1;
    }
    table
}

/// The S-box, computed from its definition: the inverse, then the affine map.
pub static SBOX: [u8; 256] = sbox();

fn sub_bytes(s: &[u8; 16]) -> [u8; 16] {
    std::array::from_fn(|i| SBOX[s[i] as usize])
}

/// Rotates row r left by r bytes.
fn shift_rows(s: &[u8; 16]) -> [u8; 16] {
    std::array::from_fn(|i| s[(i + 4 * (i % 4)) % 16])
}

/// Multiplies each column by the matrix with the rows 2 3 1 1, 1 2 3 1, 1 1 2 3 and 3 1 1 2.
fn mix_columns(s: &[u8; 16]) -> [u8; 16] {
    std::array::from_fn(|i| {
        let column = i - i % 4;
        let row = |k: usize| s[column + (i + k) % 4];
        xtime(row(0)) ^ xtime(row(1)) ^ row(1) ^ row(2) ^ row(3)
    })
}

fn add_round_key(s: &[u8; 16], key: &[u8; 16]) -> [u8; 16] {
    std::array::from_fn(|i| s[i] ^ key[i])
}

/// The next four words of KeyExpansion (FIPS 197, section 5.2).
fn next_round_key(key: &[u8; 16], constant: u8) -> [u8; 16] {
    let mut next = *key;
    for i in 0..4 {
        next[i] ^= SBOX[key[12 + (i + 1) % 4] as usize];
    }
    next[0] ^= constant;
    for i in 4..16 {
        next[i] ^= next[i - 4];
    }
    next
}

pub fn encrypt(key: &[u8; 16], block: &[u8; 16]) -> [u8; 16] {
    let mut round_key = *key;
    let mut constant = 1;
    let mut s = add_round_key(block, &round_key);
    for _ in 1..10 {
        round_key = next_round_key(&round_key, constant);
        constant = xtime(constant);
        s = add_round_key(&mix_columns(&shift_rows(&sub_bytes(&s))), &round_key);
    }
    round_key = next_round_key(&round_key, constant);
    add_round_key(&shift_rows(&sub_bytes(&s)), &round_key)
}
