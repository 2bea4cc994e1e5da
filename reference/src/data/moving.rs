//! Cases for `test_writer` and `convert`: files moved from one edition to the other.

use super::writing::all_suites;
use super::{files, samples, Part};
use crate::calls::{head, Case, Library, FILLER, REFERENCE};
use crate::plan::{Entry, Plan};
use crate::random::Random;
use crate::shift::{self, fields_at, row_at, rows};
use crate::show::shown;
use crate::trials::edit;

/// A call of `to_edition1` or `to_edition2`, together with one of `moved_length`.
#[derive(Clone)]
pub struct MoveCall {
    pub to: usize,
    pub file: Vec<u8>,
    pub out: usize,
}

#[derive(PartialEq, Debug)]
pub struct MoveOutcome {
    pub length: usize,
    pub answer: shift::Answer,
    pub out: Vec<u8>,
}

impl Case for MoveCall {
    type Outcome = MoveOutcome;

    fn answer(&self, by: &Library) -> MoveOutcome {
        let mut out = vec![FILLER; self.out];
        let pass = if self.to == 2 { by.to_edition2 } else { by.to_edition1 };
        MoveOutcome { length: (by.moved_length)(&self.file), answer: pass(&self.file, &mut out), out }
    }

    fn record(&self) -> Vec<u8> {
        let head = head(5 - self.to as u8, 0, 0, &[self.file.len(), 0, self.out]);
        [&head[..], &self.file].concat()
    }

    fn lines(&self, by: &Library) -> String {
        let MoveOutcome { answer: (status, row), out, .. } = self.answer(by);
        format!("{status} {row} {}\n", shown(&out))
    }
}

/// The call, after a check that it returns the expected status and row.
fn expected(call: MoveCall, status: u32, row: usize) -> MoveCall {
    assert_eq!(call.answer(&REFERENCE).answer, (status, row as u32));
    call
}

/// A call on a file of `rows` rows with an output of the right length.
fn call(to: usize, rows: usize, file: Vec<u8>) -> MoveCall {
    let out = if to == 2 { file.len() + 4 * rows } else { file.len().max(4 * rows) - 4 * rows };
    MoveCall { to, file, out }
}

/// A plan's file moved from edition 1 to 2 and from 2 to 1, after a check that each outputs the other.
fn both_ways(plan: &Plan) -> [MoveCall; 2] {
    let plan = plan.without_stations();
    let [one, two] = [1, 2].map(|edition| plan.in_edition(edition).file(&samples::ring()));
    let rows = plan.entries.len();
    let (there, back) = (call(2, rows, one.clone()), call(1, rows, two.clone()));
    assert_eq!(there.answer(&REFERENCE), MoveOutcome { length: two.len(), answer: (0, 0), out: two });
    assert_eq!(back.answer(&REFERENCE), MoveOutcome { length: one.len(), answer: (0, 0), out: one });
    [there, back]
}

/// Files of no row, one, three, one of each suite, and a full table; and random files.
fn good(random: &mut Random) -> Vec<MoveCall> {
    let mut plans = vec![Plan::new(vec![]), files::smallest_plan(), files::three_rows(), all_suites()];
    plans.push(files::many_rows_plan(512));
    plans.extend((1..10).map(|rows| files::random_plan(random, rows, 90)));
    plans.iter().flat_map(both_ways).collect()
}

/// Files with faulty bodies: a move checks no tag and copies the bodies unchanged.
fn bodies(_: &mut Random) -> Vec<MoveCall> {
    let mut calls = vec![];
    for good in both_ways(&files::three_rows()) {
        for row in rows(&good.file) {
            for offset in [row.text().start, row.tag().start, row.tag().end - 1] {
                let mut wrong = good.clone();
                wrong.file[offset] ^= 0x11;
                calls.push(expected(wrong, 0, 0));
            }
        }
    }
    calls
}

/// A plan of the edition from which a move starts.
fn source(to: usize) -> Plan {
    files::three_rows().without_stations().in_edition(3 - to)
}

/// Each status of the check of the source's edition, alone and together with every later fault; every other edition is 21.
fn refused_checks(_: &mut Random) -> Vec<MoveCall> {
    let mut calls = vec![];
    for to in [1, 2] {
        for status in [20].into_iter().chain(files::ORDER) {
            let (mut plan, row) = (source(to), files::OF_ROWS.contains(&status) as usize);
            if status > 20 {
                files::fault(&mut plan, status, 1);
            }
            let stations = Plan { entries: plan.entries.iter().map(at_station).collect(), ..plan.clone() };
            let [mut file, mut other] = [plan, stations].map(|plan| plan.file(&samples::ring()));
            if status == 20 {
                file.truncate(7);
                other.truncate(0);
            }
            calls.push(expected(call(to, 3, file), status, row));
            calls.push(expected(MoveCall { to, file: other, out: 5 }, status, row));
        }
        for edition in [0, 3, 4, 0x0100, 0x0200, 0xffff] {
            let plan = Plan { edition: Some(edition), ..source(to) };
            calls.push(expected(call(to, 3, plan.file(&samples::ring())), 21, 0));
        }
        calls.push(expected(call(to, 3, source(3 - to).file(&samples::ring())), 21, 0));
        calls.push(expected(call(to, 0, Plan::new(vec![]).in_edition(to).file(&[])), 21, 0));
        calls.push(expected(call(to, 3, source(to).draft()), 21, 0));
    }
    calls
}

fn at_station(entry: &Entry) -> Entry {
    Entry { station: 9, ..entry.clone() }
}

/// 35 with the first row that has a station, nonzero in each of its bytes; it comes before 6.
fn refused_stations(_: &mut Random) -> Vec<MoveCall> {
    let mut calls = vec![];
    let good = call(1, 3, source(1).file(&samples::ring()));
    for (row, offset) in (0..3).flat_map(|row| (4..8).map(move |offset| (row, offset))) {
        let mut stationed = good.clone();
        stationed.file[row_at(2, row) + offset] = [1, 0x80, 0xff][row];
        calls.push(expected(stationed.clone(), 35, row));
        if offset == 7 {
            calls.push(expected(MoveCall { out: 0, ..stationed.clone() }, 35, row));
            stationed.file[row_at(2, 2) + 4] = 1;
            calls.push(expected(stationed, 35, row));
        }
    }
    calls
}

/// 6: outputs that are too short or too long, the length of the source included.
fn refused_lengths(_: &mut Random) -> Vec<MoveCall> {
    let mut calls = vec![];
    for to in [1, 2] {
        let good = call(to, 3, source(to).file(&samples::ring()));
        let length = good.file.len();
        for out in [0, good.out - 1, good.out + 1, length, length - 1, length + 1, 2 * length] {
            calls.push(expected(MoveCall { out, ..good.clone() }, 6, 0));
        }
        let empty = call(to, 0, Plan::new(vec![]).in_edition(3 - to).file(&[]));
        for out in [0, 7, 9, 12] {
            calls.push(expected(MoveCall { out, ..empty.clone() }, 6, 0));
        }
    }
    calls
}

/// All calls of the test data.
pub fn calls() -> Vec<MoveCall> {
    let mut random = Random::new(14);
    let groups = [good, bodies, refused_checks, refused_stations, refused_lengths];
    groups.into_iter().flat_map(|group| group(&mut random)).collect()
}

/// Random files, good and edited, most of them without stations, sometimes with a wrong output length.
pub fn trials(random: &mut Random, count: usize, mut each: impl FnMut(&MoveCall)) {
    for _ in 0..count {
        let (to, row_count) = (1 + random.below(2), random.below(9));
        let mut plan = files::random_plan(random, row_count, 30);
        if random.below(4) > 0 {
            plan = plan.without_stations();
        }
        let mut file = plan.in_edition(3 - to).file(&samples::ring());
        for _ in 0..random.below(3) {
            edit(random, &mut file, row_count);
        }
        let mut call = call(to, row_count, file);
        if random.below(12) == 0 {
            call.out = [call.out + 1, call.out.max(1) - 1, 0, call.file.len()][random.below(4)];
        }
        each(&call);
    }
}

/// Around the greatest length: a file that just fits after the move, and one that would be too long, which comes after the
/// check and before 6; and the way back.
pub fn longest(mut each: impl FnMut(&MoveCall)) {
    let rows = 16;
    let most = shift::LONGEST - 4 * rows;
    for length in [most - 1, most, most + 1, shift::LONGEST] {
        let good = call(2, rows, files::long_file(1, length));
        let mut faulty = good.clone();
        faulty.file[fields_at(1, 3) + 1] = 16;
        for call in
            [MoveCall { out: shift::LONGEST, ..good.clone() }, MoveCall { out: 0, ..good.clone() }, good, faulty]
        {
            let expected = if call.file[fields_at(1, 3) + 1] == 16 {
                (26, 3)
            } else if length > most {
                (20, 0)
            } else {
                (if call.out == length + 4 * rows { 0 } else { 6 }, 0)
            };
            assert_eq!(call.answer(&REFERENCE).answer, expected);
            each(&call);
        }
    }
    for length in [shift::LONGEST - 1, shift::LONGEST] {
        each(&call(1, rows, files::long_file(2, length)));
    }
}

/// The files of the program `convert`: it moves the sample day to edition 2.
pub fn convert_parts() -> [Part; 3] {
    let file = samples::day();
    let (status, row) = call(2, rows(&file).len(), file.clone()).answer(&REFERENCE).answer;
    [
        ("args", b"day.shift\nstations.shift\n".to_vec()),
        ("data/day.shift", file),
        ("stdout", format!("{status} {row}\n").into_bytes()),
    ]
}
