//! Opens every job of a shift file: `day FILE RING`.

use snoekeldraf::{Ring, ShiftFile};
use std::error::Error;

fn main() -> Result<(), Box<dyn Error>> {
    let words: Vec<String> = std::env::args().skip(1).collect();
    let [file, ring] = &words[..] else { return Err("day FILE RING".into()) };
    let ring = Ring::try_from(&std::fs::read(ring)?[..])?;
    let bytes = std::fs::read(file)?;
    for entry in ShiftFile::check(&bytes)?.entries() {
        let mut message = vec![0; entry.text.len()];
        match entry.open(&ring, &mut message) {
            Ok(verified) => {
                println!("{} in {}: {}", verified.job(), verified.unit(), String::from_utf8_lossy(&message))
            }
            Err(refused) => println!("{} {refused}", entry.unverified_job),
        }
    }
    Ok(())
}
