//! The sealer and the opener against the reference implementation: every answer, every byte.

mod common;

use common::same;
use reference::calls::{Call, Case, CountedCall, REFERENCE};
use reference::data::{cases, counted};
use reference::random::Random;
use reference::trials;

/// The sealer returns its tag and is passed no buffer for it: number 7 of the sealer cannot come.
fn can_be_written(call: &Call) -> bool {
    call.opens || call.answer(&REFERENCE).number != 7
}

#[derive(Default)]
struct Tally {
    same: usize,
    left_out: usize,
}

impl Tally {
    fn put(&mut self, call: &Call) {
        if can_be_written(call) {
            same(call);
            self.same += 1;
        } else {
            self.left_out += 1;
        }
    }

    fn put_counted(&mut self, call: &Call) {
        if can_be_written(call) {
            same(&CountedCall(call.clone()));
            self.same += 1;
        } else {
            self.left_out += 1;
        }
    }

    fn says(&self, what: &str) {
        println!("{} cases, {} that cannot be written: {what}", self.same, self.left_out);
        assert!(self.same > 10 * self.left_out);
    }
}

#[test]
fn calls_of_the_program_cases() {
    let mut tally = Tally::default();
    cases::calls().iter().for_each(|call| tally.put(call));
    tally.says("the calls of test_comet: sealed and opened");
}

#[test]
fn all_lengths_up_to_three_blocks() {
    let mut tally = Tally::default();
    trials::lengths(&mut Random::new(101), |call| tally.put(call));
    tally.says("all lengths up to 3 blocks + 1, good and damaged");
}

#[test]
fn refusals_alone_and_in_pairs() {
    let mut tally = Tally::default();
    trials::faults(&mut Random::new(102), |call| tally.put(call));
    trials::faults(&mut Random::new(103), |call| tally.put_counted(call));
    tally.says("refusals, alone and in pairs");
}

#[test]
fn lengths_around_the_limit() {
    let mut tally = Tally::default();
    trials::limits(&mut Random::new(104), |call| tally.put(call));
    trials::limits(&mut Random::new(105), |call| tally.put_counted(call));
    tally.says("lengths around 65,536");
}

#[test]
fn random_records() {
    let mut tally = Tally::default();
    trials::records(&mut Random::new(106), 30_000, |call| tally.put(call));
    trials::records(&mut Random::new(107), 10_000, |call| tally.put_counted(call));
    tally.says("random records, good, damaged and faulty");
}

#[test]
fn calls_of_the_program_counted() {
    let mut tally = Tally::default();
    counted::calls().iter().for_each(|call| tally.put_counted(&call.0));
    tally.says("the calls of test_comet: counted");
}
