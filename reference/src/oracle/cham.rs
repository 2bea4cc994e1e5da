//! CHAM-64/128 and CHAM-128/128 of the original CHAM paper: 80 rounds, four words, a key of 128 bits.

const ROUNDS: usize = 80;

/// Defines the module of CHAM with words of the type `$word`, which has `$size` bytes.
macro_rules! cham {
    ($name:ident, $word:ident, $size:expr) => {
        pub mod $name {
            use super::ROUNDS;

            const SIZE: usize = $size;
            /// k/w in the paper: the number of words of the key.
            const KEY_WORDS: usize = 16 / SIZE;

            /// Word i of a byte string, little-endian.
            fn word(bytes: &[u8], i: usize) -> $word {
                $word::from_le_bytes(bytes[SIZE * i..SIZE * (i + 1)].try_into().unwrap())
            }

            fn round_keys(key: &[u8; 16]) -> [$word; 2 * KEY_WORDS] {
                let mut keys = [0; 2 * KEY_WORDS];
                for i in 0..KEY_WORDS {
                    let k = word(key, i);
                    keys[i] = k ^ k.rotate_left(1) ^ k.rotate_left(8);
                    keys[(i + KEY_WORDS) ^ 1] = k ^ k.rotate_left(1) ^ k.rotate_left(11);
                }
                keys
            }

            fn round(s: [$word; 4], i: usize, key: $word) -> [$word; 4] {
                let (inner, outer) = if i % 2 == 0 { (1, 8) } else { (8, 1) };
                let sum = (s[0] ^ i as $word).wrapping_add(s[1].rotate_left(inner) ^ key);
                [s[1], s[2], s[3], sum.rotate_left(outer)]
            }

            pub fn encrypt(key: &[u8; 16], block: &[u8; 4 * SIZE]) -> [u8; 4 * SIZE] {
                let keys = round_keys(key);
                let mut s = std::array::from_fn(|i| word(block, i));
                for i in 0..ROUNDS {
                    s = round(s, i, keys[i % (2 * KEY_WORDS)]);
                }
                let mut image = [0; 4 * SIZE];
                for (i, x) in s.iter().enumerate() {
                    image[SIZE * i..SIZE * (i + 1)].copy_from_slice(&x.to_le_bytes());
                }
                image
            }
        }
    };
}

cham!(cham64, u16, 2);
cham!(cham128, u32, 4);
