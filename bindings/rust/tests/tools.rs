//! Writer, reseal pass, comparison, moves, amendments and report against the reference implementation.

mod common;

use common::same;
use reference::calls::Case;
use reference::data::{amending, comparing, moving, reading, resealing, writing};
use reference::random::Random;

/// Puts a case, and counts it.
fn counting<C: Case>(count: &mut usize) -> impl FnMut(&C) + '_ {
    |case| {
        same(case);
        *count += 1;
    }
}

#[test]
fn drafts_sealed_and_files_unsealed() {
    let mut count = 0;
    writing::calls().iter().for_each(counting(&mut count));
    writing::single_bytes(counting(&mut count));
    writing::trials(&mut Random::new(121), 20_000, counting(&mut count));
    println!("{count} cases: drafts sealed and files unsealed");
}

#[test]
fn files_resealed() {
    let mut count = 0;
    resealing::calls().iter().for_each(counting(&mut count));
    resealing::single_bytes(counting(&mut count));
    resealing::trials(&mut Random::new(122), 10_000, counting(&mut count));
    println!("{count} cases: files resealed");
}

#[test]
fn files_compared() {
    let mut count = 0;
    comparing::calls().iter().for_each(counting(&mut count));
    comparing::trials(&mut Random::new(123), 10_000, counting(&mut count));
    comparing::longest(counting(&mut count));
    println!("{count} cases: pairs of files compared");
}

#[test]
fn files_moved() {
    let mut count = 0;
    moving::calls().iter().for_each(counting(&mut count));
    moving::trials(&mut Random::new(124), 10_000, counting(&mut count));
    moving::longest(counting(&mut count));
    println!("{count} cases: files moved");
}

#[test]
fn files_amended() {
    let mut count = 0;
    amending::calls().iter().for_each(counting(&mut count));
    amending::trials(&mut Random::new(125), 10_000, counting(&mut count));
    amending::longest(counting(&mut count));
    println!("{count} cases: amendments");
}

#[test]
fn files_reported() {
    let mut count = 0;
    reading::calls().iter().for_each(counting(&mut count));
    reading::trials(&mut Random::new(126), 10_000, counting(&mut count));
    reading::long_files(counting(&mut count));
    println!("{count} cases: suppliers' files");
}
