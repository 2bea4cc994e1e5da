//! In place and verify against the reference implementation.

mod common;

use common::same;
use reference::calls::{Call, Case, InPlaceCall, REFERENCE};
use reference::data::{cases, in_place};
use reference::random::Random;
use reference::trials;

#[derive(Default)]
struct Tally {
    same: usize,
    left_out: usize,
}

impl Tally {
    /// The sealer returns its tag: its number 7 cannot come.
    fn put(&mut self, call: &Call) {
        for each in InPlaceCall::of(call) {
            if !call.opens && each.answer(&REFERENCE).number == 7 {
                self.left_out += 1;
            } else {
                same(&each);
                self.same += 1;
            }
        }
    }
}

#[test]
fn records_in_place() {
    let mut tally = Tally::default();
    cases::calls().iter().for_each(|call| tally.put(call));
    in_place::calls().iter().for_each(|each| tally.put(&each.call));
    trials::lengths(&mut Random::new(151), |call| tally.put(call));
    trials::faults(&mut Random::new(152), |call| tally.put(call));
    trials::limits(&mut Random::new(153), |call| tally.put(call));
    trials::records(&mut Random::new(154), 30_000, |call| tally.put(call));
    println!("{} cases, {} that cannot be written: in place", tally.same, tally.left_out);
    assert!(tally.same > 10 * tally.left_out);
}
