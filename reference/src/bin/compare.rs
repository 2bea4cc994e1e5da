//! Compares the proved library, and the plain C of the benchmark, with the reference implementation: every status and every
//! byte of every output buffer, on random and edge inputs. Exit status: 0 all equal, 1 something differs.
//!
//! ```text
//! compare [SEED]
//! ```
//!
//! Every archive of the library that build.rs found is compared: the one of this processor, linked into this program, and
//! the one for x86-64, called through a C program.

#[cfg(bridged)]
use reference::bridge;
use reference::calls::{Call, Case, CountedCall, InPlaceCall, Library, REFERENCE};
use reference::data::{
    amending, cases, comparing, contents, counted, files, in_place, moving, reading, resealing, searching, sessions,
    writing,
};
use reference::linked;
use reference::random::Random;
use reference::show::hex;
use reference::trials;

const PROVED: &[(&str, Library)] = &[
    #[cfg(native)]
    ("the proved library", linked::PROVED),
    #[cfg(bridged)]
    ("the proved library for x86-64", bridge::PROVED),
];

const PLAIN: &[(&str, Library)] = &[("the plain C", linked::PLAIN), ("the plain C by tables", linked::COLUMNS)];

const SHOWN_DIFFERENCES: usize = 10;

#[derive(Default)]
struct Tally {
    cases: usize,
    differences: usize,
    reported: usize,
}

impl Tally {
    /// Counts a difference, and prints the first few: the implementation, the call, its result and the expected one.
    fn differs(&mut self, by: &str, record: &[u8], got: String, expected: String) {
        self.differences += 1;
        if self.differences <= SHOWN_DIFFERENCES {
            println!("DIFFERENCE of {by} in the call {}\n  {got}  {expected}", hex(record));
        }
    }

    /// Compares a case that the plain C implements too.
    fn all<C: Case>(&mut self, case: &C) {
        self.put(case, &[PROVED, PLAIN].concat());
    }

    /// Compares a case that only the proved library implements.
    fn proved<C: Case>(&mut self, case: &C) {
        self.put(case, PROVED);
    }

    fn put<C: Case>(&mut self, case: &C, libraries: &[(&str, Library)]) {
        self.cases += 1;
        let expected = case.answer(&REFERENCE);
        for (by, library) in libraries {
            if case.answer(library) != expected {
                self.differs(by, &case.record(), case.lines(library), case.lines(&REFERENCE));
            }
        }
    }

    /// Prints one line for the cases since the last call.
    fn report(&mut self, group: &str) {
        println!("{:>7} cases: {group}", self.cases - self.reported);
        self.reported = self.cases;
    }
}

fn compare_records(tally: &mut Tally, random: &mut Random) {
    cases::calls().iter().for_each(|call| tally.all(call));
    tally.report("the calls of test_comet: sealed and opened");
    trials::lengths(random, |call| tally.all(call));
    tally.report("all lengths up to 3 blocks + 1, good and damaged");
    trials::faults(random, |call| tally.all(call));
    tally.report("refusals, alone and in pairs");
    trials::limits(random, |call| tally.all(call));
    tally.report("lengths around 65,536");
    trials::records(random, 30_000, |call| tally.all(call));
    tally.report("random records, good, damaged and faulty");
}

fn compare_files(tally: &mut Tally, random: &mut Random) {
    files::calls().iter().for_each(|call| tally.all(call));
    tally.report("the calls of test_shift: check, lookup, opening");
    trials::single_bytes(|call| tally.all(call));
    tally.report("every single-byte damage of three small files");
    trials::shift_files(random, 60_000, |call| tally.all(call));
    tally.report("random shift files, good and edited");
    trials::long_files(random, |call| tally.all(call));
    tally.report("long shift files");
}

fn compare_sessions(tally: &mut Tally, random: &mut Random) {
    sessions::runs().iter().for_each(|run| tally.proved(run));
    tally.report("the runs of test_session");
    sessions::all_cuttings(random, |run| tally.proved(run));
    tally.report("every cutting into three parts of up to three blocks");
    sessions::long_runs(random, 5_000, |run| tally.proved(run));
    tally.report("long sessions, refused calls among theirs");
    sessions::forged_values(random, 20_000, |forged| tally.proved(forged));
    tally.report("sessions of any value");
}

fn compare_writer(tally: &mut Tally, random: &mut Random) {
    writing::calls().iter().for_each(|call| tally.proved(call));
    tally.report("the calls of test_writer: writer");
    writing::single_bytes(|call| tally.proved(call));
    tally.report("single-byte changes of a draft and of a file");
    writing::trials(random, 20_000, |call| tally.proved(call));
    tally.report("random drafts and files, good and edited");
}

fn compare_search(tally: &mut Tally, random: &mut Random) {
    searching::calls().iter().for_each(|call| tally.proved(call));
    tally.report("the calls of test_shift: search");
    searching::trials(random, 3_000, |call| tally.proved(call));
    tally.report("jobs looked for in random files and tables");
    searching::longest(|call| tally.proved(call));
    tally.report("jobs looked for in the longest file, and in one too long");
}

fn compare_reseal(tally: &mut Tally, random: &mut Random) {
    resealing::calls().iter().for_each(|call| tally.proved(call));
    tally.report("the calls of test_writer: reseal");
    resealing::single_bytes(|call| tally.proved(call));
    tally.report("single-byte changes of a file to reseal");
    resealing::trials(random, 10_000, |call| tally.proved(call));
    tally.report("random files to reseal, good and edited");
}

fn compare_compare(tally: &mut Tally, random: &mut Random) {
    comparing::calls().iter().for_each(|call| tally.proved(call));
    tally.report("the calls of test_shift: comparison");
    comparing::trials(random, 10_000, |call| tally.proved(call));
    tally.report("random pairs of files, good and edited");
    comparing::longest(|call| tally.proved(call));
    tally.report("pairs of the longest files");
}

fn compare_moves(tally: &mut Tally, random: &mut Random) {
    moving::calls().iter().for_each(|call| tally.proved(call));
    tally.report("the calls of test_writer: moves");
    moving::trials(random, 10_000, |call| tally.proved(call));
    tally.report("random files moved, good and edited");
    moving::longest(|call| tally.proved(call));
    tally.report("moves around the longest file");
}

fn compare_amendments(tally: &mut Tally, random: &mut Random) {
    amending::calls().iter().for_each(|call| tally.proved(call));
    tally.report("the calls of test_shift: amendments");
    amending::trials(random, 10_000, |call| tally.proved(call));
    tally.report("random amendments, good and edited");
    amending::longest(|call| tally.proved(call));
    tally.report("amendments with the longest file");
}

fn compare_counts(tally: &mut Tally, random: &mut Random) {
    counted::calls().iter().for_each(|call| tally.proved(call));
    tally.report("the calls of test_comet: counted");
    trials::faults(random, |call| tally.proved(&CountedCall(call.clone())));
    trials::limits(random, |call| tally.proved(&CountedCall(call.clone())));
    tally.report("counts of refusals, and of lengths around 65,536");
    trials::records(random, 10_000, |call| tally.proved(&CountedCall(call.clone())));
    tally.report("counts of random records, good, damaged and faulty");
}

/// Compares in place: each call of the sealer sealed, each call of the opener opened and verified.
fn compare_in_place(tally: &mut Tally, random: &mut Random) {
    let each = |tally: &mut Tally, call: &Call| InPlaceCall::of(call).iter().for_each(|call| tally.proved(call));
    in_place::calls().iter().for_each(|call| tally.proved(call));
    cases::calls().iter().for_each(|call| each(tally, call));
    tally.report("the calls of test_comet: in place, verified");
    trials::lengths(random, |call| each(tally, call));
    tally.report("all lengths up to 3 blocks + 1 in place, good and damaged");
    trials::faults(random, |call| each(tally, call));
    trials::limits(random, |call| each(tally, call));
    tally.report("refusals in place, and lengths around 65,536");
    trials::records(random, 30_000, |call| each(tally, call));
    tally.report("random records in place, good, damaged and faulty");
}

fn compare_reports(tally: &mut Tally, random: &mut Random) {
    reading::calls().iter().for_each(|call| tally.proved(call));
    tally.report("the calls of test_shift: report and reader");
    reading::trials(random, 10_000, |call| tally.proved(call));
    tally.report("random files reported, good and edited");
    reading::long_files(|call| tally.proved(call));
    tally.report("reports of long files");
}

fn compare_contents(tally: &mut Tally, random: &mut Random) {
    contents::calls().iter().for_each(|call| tally.proved(call));
    tally.report("the calls of test_shift: table of contents");
    contents::trials(random, 10_000, |call| tally.proved(call));
    tally.report("rows of random files, good and edited");
    contents::longest(|call| tally.proved(call));
    tally.report("rows of the longest file, and of one too long");
}

fn main() {
    let seed = std::env::args().nth(1).map_or(2026, |seed| seed.parse().expect("SEED is a number"));
    PROVED.iter().for_each(|(name, _)| println!("compared: {name}"));
    let mut tally = Tally::default();
    let mut random = Random::new(seed);
    compare_records(&mut tally, &mut random);
    compare_files(&mut tally, &mut random);
    compare_sessions(&mut tally, &mut random);
    compare_writer(&mut tally, &mut random);
    compare_search(&mut tally, &mut random);
    compare_reseal(&mut tally, &mut random);
    compare_compare(&mut tally, &mut random);
    compare_moves(&mut tally, &mut random);
    compare_amendments(&mut tally, &mut random);
    compare_counts(&mut tally, &mut random);
    compare_reports(&mut tally, &mut random);
    compare_in_place(&mut tally, &mut random);
    compare_contents(&mut tally, &mut random);
    println!("{} cases, {} differences", tally.cases, tally.differences);
    #[cfg(bridged)]
    assert!(bridge::finish(), "the C program did not end well");
    if tally.differences > 0 {
        std::process::exit(1);
    }
}
