//! SHA-256 of FIPS 180-4, for the long answers of the vectors.

fn primes(count: usize) -> Vec<u64> {
    (2u64..).filter(|n| (2..*n).take_while(|d| d * d <= *n).all(|d| n % d != 0)).take(count).collect()
}

/// The first 32 bits of the fractional part of a root: the largest r with r^power <= prime * 2^(32 power), modulo 2^32.
fn root_bits(prime: u64, power: u32) -> u32 {
    let target = (prime as u128) << (32 * power);
    let fits = |r: u128| r.pow(power) <= target;
    let mut root: u128 = 0;
    for bit in (0..38).rev() {
        if fits(root | 1 << bit) {
            root |= 1 << bit;
        }
    }
    root as u32
}

/// The message, byte 0x80, zeros, and the length in bits, in blocks of 64 bytes.
fn padded(message: &[u8]) -> Vec<u8> {
    let mut all = message.to_vec();
    all.push(0x80);
    all.resize((all.len() + 8).next_multiple_of(64) - 8, 0);
    all.extend((8 * message.len() as u64).to_be_bytes());
    all
}

fn schedule(block: &[u8]) -> [u32; 64] {
    let mut w = [0u32; 64];
    for t in 0..64 {
        w[t] = if t < 16 {
            u32::from_be_bytes(block[4 * t..4 * t + 4].try_into().unwrap())
        } else {
            let (a, b) = (w[t - 15], w[t - 2]);
            let small_0 = a.rotate_right(7) ^ a.rotate_right(18) ^ (a >> 3);
            let small_1 = b.rotate_right(17) ^ b.rotate_right(19) ^ (b >> 10);
            w[t - 16].wrapping_add(small_0).wrapping_add(w[t - 7]).wrapping_add(small_1)
        };
    }
    w
}

fn compress(state: [u32; 8], block: &[u8], constants: &[u32]) -> [u32; 8] {
    let [mut a, mut b, mut c, mut d, mut e, mut f, mut g, mut h] = state;
    for (w, k) in schedule(block).iter().zip(constants) {
        let big_1 = e.rotate_right(6) ^ e.rotate_right(11) ^ e.rotate_right(25);
        let choice = (e & f) ^ (!e & g);
        let first = h.wrapping_add(big_1).wrapping_add(choice).wrapping_add(*k).wrapping_add(*w);
        let big_0 = a.rotate_right(2) ^ a.rotate_right(13) ^ a.rotate_right(22);
        let majority = (a & b) ^ (a & c) ^ (b & c);
        (h, g, f, e) = (g, f, e, d.wrapping_add(first));
        (d, c, b, a) = (c, b, a, first.wrapping_add(big_0).wrapping_add(majority));
    }
    let next = [a, b, c, d, e, f, g, h];
    std::array::from_fn(|i| state[i].wrapping_add(next[i]))
}

pub fn sha256(message: &[u8]) -> Vec<u8> {
    let primes = primes(64);
    let constants: Vec<u32> = primes.iter().map(|prime| root_bits(*prime, 3)).collect();
    let start: [u32; 8] = std::array::from_fn(|i| root_bits(primes[i], 2));
    let state = padded(message).chunks(64).fold(start, |state, block| compress(state, block, &constants));
    state.iter().flat_map(|word| word.to_be_bytes()).collect()
}

#[cfg(test)]
mod tests {
    use super::sha256;
    use crate::show::hex;

    #[test]
    fn published() {
        assert_eq!(hex(&sha256(b"abc")), "ba7816bf8f01cfea414140de5dae2223b00361a396177a9cb410ff61f20015ad");
        assert_eq!(hex(&sha256(b"")), "e3b0c44298fc1c149afbf4c8996fb92427ae41e4649b934ca495991b7852b855");
    }
}
