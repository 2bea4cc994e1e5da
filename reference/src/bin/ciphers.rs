//! Writes random keys and blocks with their encryptions, for `foreign/test`: suite (1 byte), key, block, encryption.
//!
//! ```text
//! ciphers COUNT SEED     COUNT of each cipher, as suites 1 to 4
//! ```

use reference::comet::{block_size, encipher};
use reference::random::Random;
use std::io::{BufWriter, Write};

fn main() -> std::io::Result<()> {
    let arguments: Vec<u64> = std::env::args().skip(1).map(|word| word.parse().expect("a number")).collect();
    let [count, seed] = arguments[..] else { panic!("usage: ciphers COUNT SEED") };
    let mut random = Random::new(seed);
    let mut to = BufWriter::new(std::io::stdout().lock());
    for suite in 1..=4 {
        for _ in 0..count {
            let (key, block) = (random.array::<16>(), random.bytes(block_size(suite)));
            to.write_all(&[suite])?;
            to.write_all(&key)?;
            to.write_all(&block)?;
            to.write_all(&encipher(suite, &key, &block))?;
        }
    }
    to.flush()
}
