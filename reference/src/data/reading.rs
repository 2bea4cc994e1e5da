//! Cases for `test_shift` and `inspect`: the report and the reader on suppliers' files.

use super::writing::all_suites;
use super::{files, samples, Part};
use crate::calls::{head, Case, Library, FILLER, FILLER_NUMBER, REFERENCE};
use crate::comet::fitting_tag;
use crate::difference::PROGRAM_LONGEST;
use crate::plan::{Entry, Plan};
use crate::random::Random;
use crate::report::{printed, Reader, Report};
use crate::shift::{self, edition, row_at, rows, EDITIONS};
use crate::show::{list, shown};
use crate::trials::{edit, misuse_ring};

/// A file and a ring, the lengths of the report's two lists, and how often the reader is called.
#[derive(Clone)]
pub struct ReadCall {
    pub file: Vec<u8>,
    pub ring: Vec<u8>,
    pub places: [usize; 2],
    pub asks: usize,
}

#[derive(PartialEq, Debug)]
pub struct ReadOutcome {
    pub report: Report,
    pub jobs: Vec<u32>,
    pub numbers: Vec<u8>,
}

impl ReadCall {
    /// The reader's line: the result of each of its calls.
    fn reader_line(&self) -> String {
        let mut reader = Reader::new(&self.file);
        let mut line = "reader".to_string();
        for _ in 0..self.asks {
            line += &reader.entry().map_or(" -".to_string(), |(i, row)| {
                let nonce = row_at(edition(&self.file), i + 1) - row.nonce.len();
                format!(" {i} {} {} {nonce}", row.job, row.station)
            });
        }
        line + "\n"
    }
}

/// The report is the given implementation's; the reader is always the reference implementation's, since C has no reader.
impl Case for ReadCall {
    type Outcome = ReadOutcome;

    fn answer(&self, by: &Library) -> ReadOutcome {
        let (mut jobs, mut numbers) = (vec![FILLER_NUMBER; self.places[0]], vec![FILLER; self.places[1]]);
        let report = (by.report)(&self.file, &self.ring, &mut jobs, &mut numbers);
        ReadOutcome { report, jobs, numbers }
    }

    fn record(&self) -> Vec<u8> {
        let [jobs, numbers] = self.places;
        let head = head(5, 0, 0, &[self.file.len(), self.ring.len(), jobs, numbers, self.asks]);
        [&head[..], &self.file, &self.ring].concat()
    }

    fn lines(&self, by: &Library) -> String {
        let ReadOutcome { report: Report { number: status, row, count }, jobs, numbers } = self.answer(by);
        format!("{status} {row} {count}{} {}\n{}", list(&jobs), shown(&numbers), self.reader_line())
    }
}

/// A call with the samples' ring, lists of exactly `rows` elements, and two reader calls more than there are rows.
fn call(rows: usize, file: Vec<u8>) -> ReadCall {
    ReadCall { file, ring: samples::ring(), places: [rows; 2], asks: rows + 2 }
}

fn of_plan(plan: &Plan) -> ReadCall {
    call(plan.entries.len(), plan.file(&samples::ring()))
}

/// The call, after a check that it is refused with the expected status and row.
fn refused(call: ReadCall, status: u32, row: u32) -> ReadCall {
    assert_eq!(call.answer(&REFERENCE).report, Report { number: status, row, count: 0 });
    call
}

/// Good files of both editions, whose entries all have status 0; then with longer lists.
fn good(random: &mut Random) -> Vec<ReadCall> {
    let mut plans = vec![Plan::new(vec![]), files::smallest_plan(), files::three_rows(), all_suites()];
    plans.extend((1..9).map(|rows| files::random_plan(random, rows, 60)));
    let mut calls = vec![];
    for (plan, edition) in plans.iter().flat_map(|plan| EDITIONS.map(|edition| (plan, edition))) {
        let call = of_plan(&plan.in_edition(edition));
        let outcome = call.answer(&REFERENCE);
        let jobs: Vec<u32> = plan.entries.iter().map(|entry| entry.job).collect();
        assert_eq!((outcome.report.number, outcome.jobs, outcome.numbers), (0, jobs.clone(), vec![0; jobs.len()]));
        calls.push(ReadCall { places: [jobs.len() + 2, jobs.len() + 3], asks: jobs.len() + 4, ..call.clone() });
        calls.push(call);
    }
    calls.push(of_plan(&files::many_rows_plan(512)));
    calls.push(of_plan(&files::many_rows_plan(512).in_edition(2)));
    calls
}

/// Wrong tags in one row, in two and in all: the report goes on after each. The reader returns every entry.
fn wrong_tags(_: &mut Random) -> Vec<ReadCall> {
    let mut calls = vec![];
    for edition in EDITIONS {
        let good = of_plan(&all_suites().in_edition(edition));
        let of_file = rows(&good.file);
        for wrong in [0b1, 0b10, 0b100, 0b1000, 0b1_0000, 0b10_0000, 0b10_0001, 0b1100, 0b11_1111] {
            let mut call = good.clone();
            for (i, row) in of_file.iter().enumerate().filter(|(i, _)| wrong >> i & 1 == 1) {
                call.file[if i % 2 == 0 { row.tag().start } else { row.tag().end - 1 }] ^= 0x04;
            }
            let numbers: Vec<u8> = (0..of_file.len()).map(|i| 8 * (wrong >> i & 1) as u8).collect();
            assert_eq!(call.answer(&REFERENCE).numbers, numbers);
            calls.push(call);
        }
        let mut other_key = good.clone();
        other_key.ring[16 * 6 + 1] ^= 1;
        calls.push(other_key);
        let mut altered = good.clone();
        altered.file[of_file[3].text().start] ^= 1;
        altered.file[of_file[4].offset + 4] ^= 3;
        calls.push(altered);
    }
    calls
}

/// Each status of the check, alone and together with every later fault; the reader returns no entry.
fn refused_checks(_: &mut Random) -> Vec<ReadCall> {
    let mut calls = vec![];
    for (edition, status) in EDITIONS
        .into_iter()
        .flat_map(|edition| [20].into_iter().chain(files::ORDER).map(move |status| (edition, status)))
    {
        let (mut plan, row) = (files::three_rows().in_edition(edition), files::OF_ROWS.contains(&status) as u32);
        if status > 20 {
            files::fault(&mut plan, status, 1);
        }
        let mut file = plan.file(&samples::ring());
        if status == 20 {
            file.truncate(7);
        }
        calls.push(refused(call(3, file.clone()), status, row));
        calls.push(refused(ReadCall { file, ring: vec![], places: [0, 2], asks: 2 }, status, row));
    }
    calls.push(refused(call(3, files::three_rows().draft()), 21, 0));
    calls.push(refused(call(3, vec![]), 20, 0));
    calls
}

/// 2 and 6, each alone and both together.
fn refused_lengths(_: &mut Random) -> Vec<ReadCall> {
    let mut calls = vec![];
    for plan in [files::three_rows(), Plan::new(vec![])] {
        for ring in [0, 255, 257, 300] {
            let mut other = of_plan(&plan);
            other.ring.resize(ring, FILLER);
            calls.push(refused(other.clone(), 2, 0));
            calls.push(refused(ReadCall { places: [0, 0], ..other }, 2, 0));
        }
    }
    for places in [[2, 3], [3, 2], [0, 3], [3, 0], [0, 0], [2, 9]] {
        calls.push(refused(ReadCall { places, ..of_plan(&files::three_rows()) }, 6, 0));
    }
    calls
}

/// A file of two rows with this length, whose ciphertexts are zeros.
fn of_length(length: usize) -> Vec<u8> {
    let empty = [Entry::new(7, 3, 1, 1, [1; 16], b""), Entry::new(9, 6, 2, 2, [2; 16], b"")];
    let short = Plan::new(empty.to_vec()).file(&samples::ring()).len();
    let mut plan = Plan::new(empty.to_vec());
    plan.entries[1].message = vec![0; length - short];
    let mut file = plan.file(&samples::ring());
    let (ring, row) = (samples::ring(), rows(&file)[1]);
    file[row.text()].fill(0);
    let (ad, text) = (file[row.associated()].to_vec(), file[row.text()].to_vec());
    let tag = fitting_tag(row.suite, row.key(&ring), row.nonce(), &ad, &text);
    file[row.tag()].copy_from_slice(&tag);
    file
}

/// A file of 65,280 bytes is reported; one more byte is 20, before every other status, and the reader still reads it.
fn longest(_: &mut Random) -> Vec<ReadCall> {
    let just = call(2, of_length(PROGRAM_LONGEST));
    assert_eq!(just.answer(&REFERENCE).numbers, [0, 0]);
    let longer = call(2, of_length(PROGRAM_LONGEST + 1));
    assert_eq!(shift::check(&longer.file), (0, 0));
    vec![just, refused(longer.clone(), 20, 0), refused(ReadCall { ring: vec![], places: [0, 0], ..longer }, 20, 0)]
}

/// All calls of the test data.
pub fn calls() -> Vec<ReadCall> {
    let mut random = Random::new(18);
    let groups = [good, wrong_tags, refused_checks, refused_lengths, longest];
    groups.into_iter().flat_map(|group| group(&mut random)).collect()
}

/// Random files, good and edited, sometimes with a wrong ring or lists of another length.
pub fn trials(random: &mut Random, count: usize, mut each: impl FnMut(&ReadCall)) {
    for _ in 0..count {
        let row_count = random.below(9);
        let plan = files::random_plan(random, row_count, 40).in_edition(1 + random.below(2));
        let mut call = of_plan(&plan);
        for _ in 0..random.below(3) {
            edit(random, &mut call.file, row_count);
        }
        let which = random.below(2);
        misuse_ring(random, &mut call.ring, &mut call.places[which]);
        call.places[1 - which] += random.below(3);
        each(&call);
    }
}

/// Files around the greatest length of the program and around that of the format.
pub fn long_files(mut each: impl FnMut(&ReadCall)) {
    for length in [PROGRAM_LONGEST - 1, PROGRAM_LONGEST, PROGRAM_LONGEST + 1] {
        each(&call(2, of_length(length)));
    }
    for length in [shift::LONGEST, shift::LONGEST + 1] {
        let mut file = files::longest();
        file.resize(length, 0);
        each(&call(16, file));
    }
}

/// The files of the program `inspect`: the sample day in edition 2, with one wrong tag and one altered text.
pub fn inspect_parts() -> [Part; 4] {
    let mut file = samples::stations();
    let of_file = rows(&file);
    file[of_file[2].tag().start] ^= 1;
    file[of_file[5].text().end - 1] ^= 0x80;
    let stdout = printed(&file, &samples::ring());
    assert_eq!(stdout, "entries 8\n4101 0\n4102 0\n4103 8\n4105 0\n4110 0\n4200 8\n4210 0\n4211 0\n");
    [
        ("args", b"supplier.shift\nring.keys\n".to_vec()),
        ("data/supplier.shift", file),
        ("data/ring.keys", samples::ring()),
        ("stdout", stdout.into_bytes()),
    ]
}
