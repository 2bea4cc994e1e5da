//! Cases for `test_shift`: the table of contents by row number.

use super::{files, samples};
use crate::calls::{head, Case, Library, REFERENCE};
use crate::contents::{Fields, Header};
use crate::plan::Plan;
use crate::random::Random;
use crate::shift::{self, fields_at, row_at, EDITIONS};
use crate::show::list;
use crate::trials::edit;

/// Reads `count` rows of a file from row `first` on, up to row 2^32 - 1.
#[derive(Clone)]
pub struct ContentsCall {
    pub first: u32,
    pub count: usize,
    pub file: Vec<u8>,
}

#[derive(PartialEq, Debug)]
pub struct ContentsOutcome {
    pub header: Header,
    pub rows: Vec<(u32, Fields)>,
}

impl Case for ContentsCall {
    type Outcome = ContentsOutcome;

    fn answer(&self, by: &Library) -> ContentsOutcome {
        let rows = (self.first..=u32::MAX).take(self.count);
        ContentsOutcome {
            header: (by.contents_header)(&self.file),
            rows: rows.map(|row| (by.contents_row)(&self.file, row)).collect(),
        }
    }

    fn record(&self) -> Vec<u8> {
        let head = head(10, 0, self.first, &[self.file.len(), self.count]);
        [&head[..], &self.file].concat()
    }

    fn lines(&self, by: &Library) -> String {
        let ContentsOutcome { header: (status, edition, count), rows } = self.answer(by);
        let line = |(status, fields): &(u32, Fields)| format!("{status}{}\n", list(fields));
        format!("{status} {edition} {count}\n") + &rows.iter().map(line).collect::<String>()
    }
}

fn call(first: u32, count: usize, file: Vec<u8>) -> ContentsCall {
    ContentsCall { first, count, file }
}

fn of_plan(plan: &Plan, edition: usize) -> Vec<u8> {
    plan.in_edition(edition).file(&samples::ring())
}

/// All rows and two more of good files, after a check that offsets and lengths are those of the job's entry.
fn good(random: &mut Random) -> Vec<ContentsCall> {
    let mut plans = vec![Plan::new(vec![]), files::smallest_plan(), files::three_rows()];
    plans.extend((1..7).map(|rows| files::random_plan(random, rows, 60)));
    let mut calls = vec![];
    for (plan, edition) in plans.iter().flat_map(|plan| EDITIONS.map(|edition| (plan, edition))) {
        let (rows, file) = (plan.entries.len(), of_plan(plan, edition));
        let call = call(0, rows + 2, file);
        let outcome = call.answer(&REFERENCE);
        assert_eq!(outcome.header, (0, edition as u32, rows as u32));
        for (i, (status, fields)) in outcome.rows.iter().enumerate() {
            assert_eq!(*status, if i < rows { 0 } else { 32 });
            if i < rows {
                let entry = shift::entry(&call.file, plan.entries[i].job);
                assert_eq!(entry, ((0, i as u32), [fields[5], fields[6], fields[7], fields[8]].map(|x| x as usize)));
            }
        }
        calls.push(call);
    }
    calls
}

/// The last row, the row after it and rows far beyond, in tables of 0, 1, 511 and 512 rows.
fn edges(_: &mut Random) -> Vec<ContentsCall> {
    let mut calls = vec![];
    for edition in EDITIONS {
        for rows in [0, 1, 511, 512] {
            let file = of_plan(&files::many_rows_plan(rows), edition);
            calls.push(call((rows as u32).max(1) - 1, 3, file.clone()));
            if rows == 1 {
                for first in [256, 65_535, 65_536, 0x7fff_ffff, 0x8000_0000, u32::MAX - 1] {
                    calls.push(call(first, 3, file.clone()));
                }
            }
        }
        calls.push(call(512, 2, of_plan(&files::many_rows_plan(513), edition)));
    }
    calls
}

/// 20 to 24, each alone and together with all later ones, for a row that the table has and for one that it has not.
fn refused(_: &mut Random) -> Vec<ContentsCall> {
    let mut calls = vec![];
    let mut add = |file: Vec<u8>, status: u32| {
        let call = call(2, 2, file);
        let outcome = call.answer(&REFERENCE);
        assert_eq!((outcome.header, outcome.rows), ((status, 0, 0), vec![(status, [0; 9]); 2]));
        calls.push(call);
    };
    for edition in EDITIONS {
        let good = files::three_rows().in_edition(edition);
        for length in 0..8 {
            add(good.file(&samples::ring())[..length].to_vec(), 20);
        }
        for (index, status) in files::ORDER[..4].iter().enumerate() {
            for faults in [&files::ORDER[index..index + 1], &files::ORDER[index..4], &files::ORDER[index..]] {
                let mut plan = good.clone();
                faults.iter().for_each(|fault| files::fault(&mut plan, *fault, 1));
                add(plan.file(&samples::ring()), *status);
            }
        }
    }
    add(files::three_rows().draft(), 21);
    // a table of edition 1 that is too short for the rows of edition 2
    let mut narrow = of_plan(&files::many_rows_plan(200), 1);
    narrow.truncate(row_at(1, 200));
    narrow[0] = 2;
    let length = (narrow.len() as u32).to_le_bytes();
    narrow[4..8].copy_from_slice(&length);
    add(narrow, 24);
    calls
}

/// Bytes to write at an offset of a row's fields: associated data of the greatest length at the greatest offset, associated
/// data that ends at 2^32, the longest text, and all ones.
const PATCHES: [(usize, &[u8]); 4] =
    [(2, &[0xff; 6]), (2, &[4, 0, 0xfc, 0xff, 0xff, 0xff]), (8, &[0xff; 4]), (0, &[0xff; 28])];

/// Each fault of a row, none of which is refused here; then rows of all ones, whose text offset wraps modulo 2^32.
fn damaged(_: &mut Random) -> Vec<ContentsCall> {
    let mut calls = vec![];
    for edition in EDITIONS {
        for status in &files::ORDER[4..] {
            let mut plan = files::three_rows().in_edition(edition);
            files::fault(&mut plan, *status, 1);
            let call = call(0, 4, plan.file(&samples::ring()));
            assert_eq!((shift::check(&call.file).0, call.answer(&REFERENCE).header.0), (*status, 0));
            calls.push(call);
        }
        let good = of_plan(&files::three_rows(), edition);
        for (offset, bytes) in PATCHES {
            let mut file = good.clone();
            file[fields_at(edition, 1) + offset..][..bytes.len()].copy_from_slice(bytes);
            calls.push(call(1, 1, file));
        }
        let mut ones = good;
        ones[8..].fill(0xff);
        calls.push(call(0, 4, ones));
    }
    let wraps = |call: &ContentsCall| call.answer(&REFERENCE).rows.iter().any(|(_, fields)| fields[7] < fields[5]);
    assert!(calls.iter().any(wraps));
    calls
}

/// All calls of the test data.
pub fn calls() -> Vec<ContentsCall> {
    let mut random = Random::new(20);
    let groups = [good, edges, refused, damaged];
    groups.into_iter().flat_map(|group| group(&mut random)).collect()
}

/// Random files, good and edited: every row, two more, and a row far beyond.
pub fn trials(random: &mut Random, count: usize, mut each: impl FnMut(&ContentsCall)) {
    for _ in 0..count {
        let rows = random.below(9);
        let mut file = files::random_plan(random, rows, 40).in_edition(1 + random.below(2)).file(&samples::ring());
        for _ in 0..random.below(4) {
            edit(random, &mut file, rows);
        }
        each(&call(0, rows + 2, file.clone()));
        each(&call(u32::MAX >> random.below(32), 1, file));
    }
}

/// Around the greatest length: the longest file is read, one byte more is 20.
pub fn longest(mut each: impl FnMut(&ContentsCall)) {
    for edition in EDITIONS {
        let longest = files::long_file(edition, shift::LONGEST);
        each(&call(0, 18, longest.clone()));
        let mut longer = longest;
        longer.push(0);
        longer[4..8].copy_from_slice(&(shift::LONGEST as u32 + 1).to_le_bytes());
        each(&call(0, 2, longer));
    }
}
