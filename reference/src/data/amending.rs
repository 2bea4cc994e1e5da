//! Cases for `test_shift`: the current entry of an amendment and a day's file.

use super::writing::all_suites;
use super::{files, samples};
use crate::amendment::{current, Amended};
use crate::calls::{head, Case, Library, FILLER, REFERENCE};
use crate::plan::{Entry, Plan};
use crate::random::Random;
use crate::shift::{rows, EDITIONS};
use crate::show::shown;
use crate::trials::{edit, misuse_ring};

#[derive(Clone)]
pub struct AmendCall {
    pub job: u32,
    pub amendment: Vec<u8>,
    pub day: Vec<u8>,
    pub ring: Vec<u8>,
    pub out: usize,
}

#[derive(PartialEq, Debug)]
pub struct AmendOutcome {
    pub amended: Amended,
    pub opened: (u32, u32, u32),
    pub out: Vec<u8>,
}

impl Case for AmendCall {
    type Outcome = AmendOutcome;

    fn answer(&self, by: &Library) -> AmendOutcome {
        let mut out = vec![FILLER; self.out];
        AmendOutcome {
            amended: (by.amended)(&self.amendment, &self.day, self.job),
            opened: (by.open_current)(&self.amendment, &self.day, &self.ring, self.job, &mut out),
            out,
        }
    }

    fn record(&self) -> Vec<u8> {
        let [amendment, day, ring] = [&self.amendment, &self.day, &self.ring].map(|bytes| bytes.len());
        let head = head(3, 0, self.job, &[amendment, day, ring, self.out]);
        [&head[..], &self.amendment, &self.day, &self.ring].concat()
    }

    fn lines(&self, by: &Library) -> String {
        let AmendOutcome { amended: Amended { number: status, file, row, at, length }, opened, out } = self.answer(by);
        let source = if file == 2 && status == 0 { &self.day } else { &self.amendment };
        let part = shown(&source[at..at + length]);
        let (opens, of_file, of_row) = opened;
        format!("{status} {file} {row} {at} {length} {part} {opens} {of_file} {of_row} {}\n", shown(&out))
    }
}

fn call(job: u32, amendment: &Plan, day: &Plan, out: usize) -> AmendCall {
    let [amendment, day] = [amendment, day].map(|plan| plan.file(&samples::ring()));
    AmendCall { job, amendment, day, ring: samples::ring(), out }
}

/// The call, after a check that `amended` and `open_current` return the expected statuses, files and rows.
fn expected(call: AmendCall, found: (u32, u32, u32), opened: (u32, u32, u32)) -> AmendCall {
    let AmendOutcome { amended, opened: got, .. } = call.answer(&REFERENCE);
    assert_eq!(((amended.number, amended.file, amended.row), got), (found, opened));
    if found.0 == 0 {
        let source = if found.1 == 1 { &call.amendment } else { &call.day };
        let part = current(&call.amendment, &call.day, call.job);
        assert!(part == &source[amended.at..amended.at + amended.length] && part[..4] == call.job.to_le_bytes());
    }
    call
}

/// The call, after a check that both functions refuse it with this status, file and row.
fn refused(call: AmendCall, status: u32, file: u32, row: u32) -> AmendCall {
    expected(call, (status, file, row), (status, file, row))
}

/// An entry whose message and associated data name the file that it is in.
fn entry(job: u32, suite: u8, whose: &str) -> Entry {
    let mut nonce = [job as u8; 16];
    nonce[0] ^= whose.len() as u8;
    let mut entry = Entry::new(job, suite, (job % 16) as u8, 1, nonce, format!("{whose} {job}").as_bytes());
    entry.ad.extend(whose.as_bytes());
    entry.station = job;
    entry
}

/// The day has jobs 10, 20, 30, 40 and 50; the amendment replaces 20 and 50 and adds 25 and 60.
fn day() -> Plan {
    Plan::new([(10, 3), (20, 1), (30, 4), (40, 5), (50, 6)].map(|(job, suite)| entry(job, suite, "day")).to_vec())
}

fn amendment() -> Plan {
    Plan::new([(20, 3), (25, 2), (50, 4), (60, 6)].map(|(job, suite)| entry(job, suite, "quality")).to_vec())
}

/// Jobs of one file, of the other, of both and of neither, in every combination of editions.
fn good(_: &mut Random) -> Vec<AmendCall> {
    let mut calls = vec![];
    let jobs: [(u32, u32, u32); 7] =
        [(10, 2, 0), (20, 1, 0), (25, 1, 1), (30, 2, 2), (40, 2, 3), (50, 1, 2), (60, 1, 3)];
    for (one, two) in EDITIONS.into_iter().flat_map(|one| EDITIONS.map(|two| (one, two))) {
        let (amendment, day) = (amendment().in_edition(one), day().in_edition(two));
        for (job, file, row) in jobs {
            let length = if file == 1 { "quality 20".len() } else { "day 10".len() };
            calls.push(expected(call(job, &amendment, &day, length), (0, file, row), (0, file, 0)));
        }
        for job in [0, 9, 21, 61, u32::MAX] {
            calls.push(refused(call(job, &amendment, &day, 6), 32, 0, 0));
        }
    }
    let empty = Plan::new(vec![]);
    calls.push(expected(call(20, &empty, &day(), 6), (0, 2, 1), (0, 2, 0)));
    calls.push(expected(call(20, &amendment(), &empty, 10), (0, 1, 0), (0, 1, 0)));
    calls.push(refused(call(20, &empty, &empty, 0), 32, 0, 0));
    calls.push(expected(call(20, &day(), &day(), 6), (0, 1, 1), (0, 1, 0)));
    calls
}

/// A plan's file with the fault of one status of the check, in row 1 if the status has a row.
fn faulty(plan: &Plan, status: u32) -> Vec<u8> {
    let mut plan = plan.clone();
    if status > 20 {
        files::fault(&mut plan, status, 1);
    }
    let mut file = plan.file(&samples::ring());
    if status == 20 {
        file.truncate(7);
    }
    file
}

/// Each status of the check in the amendment, in the day's file although the amendment has the job, and in both, each
/// together with every later fault.
fn refused_checks(_: &mut Random) -> Vec<AmendCall> {
    let mut calls = vec![];
    let numbers = [20].into_iter().chain(files::ORDER);
    for (status, other) in numbers.clone().zip(numbers.cycle().skip(4)) {
        let row = |status: u32| files::OF_ROWS.contains(&status) as u32;
        let (one, two) = (faulty(&amendment(), status), faulty(&day(), status));
        let good = call(20, &amendment(), &day(), 10);
        calls.push(refused(AmendCall { amendment: one.clone(), ..good.clone() }, status, 1, row(status)));
        calls.push(refused(AmendCall { day: two.clone(), ..good.clone() }, status, 2, row(status)));
        let both = AmendCall { amendment: one, day: faulty(&day(), other), job: 21, ring: vec![], out: 3 };
        calls.push(refused(both, status, 1, row(status)));
        calls.push(refused(AmendCall { day: two, job: 21, ring: vec![], out: 3, ..good }, status, 2, row(status)));
    }
    let good = call(20, &amendment(), &day(), 10);
    calls.push(refused(AmendCall { amendment: day().draft(), ..good.clone() }, 21, 1, 0));
    calls.push(refused(AmendCall { day: day().draft(), ..good.clone() }, 21, 2, 0));
    calls.push(refused(AmendCall { amendment: vec![], day: vec![], ..good }, 20, 1, 0));
    calls
}

/// 32, 2, 6 and 8 of opening in all pairs, for an entry of either file.
fn openings(_: &mut Random) -> Vec<AmendCall> {
    let mut calls = vec![];
    for (job, file, length) in [(20, 1, 10), (30, 2, 6)] {
        let good = call(job, &amendment(), &day(), length);
        for faults in 0..16 {
            let mut call = good.clone();
            call.job += faults & 1;
            call.ring.truncate(if faults & 2 != 0 { 255 } else { 256 });
            call.out += if faults & 4 != 0 { 1 } else { 0 };
            let source = if file == 1 { &mut call.amendment } else { &mut call.day };
            let row = rows(source).into_iter().find(|row| row.job == job).unwrap();
            source[row.tag().start] ^= if faults & 8 != 0 { 1 } else { 0 };
            let status = match faults {
                0 => 0,
                _ if faults & 1 != 0 => 32,
                _ if faults & 2 != 0 => 2,
                _ if faults & 4 != 0 => 6,
                _ => 8,
            };
            let file = if status == 32 { 0 } else { file };
            let found = call.answer(&REFERENCE).amended;
            calls.push(expected(call, (found.number, found.file, found.row), (status, file, 0)));
        }
    }
    calls
}

/// Wrong tags of other entries, also of the replaced one, change nothing.
fn elsewhere(_: &mut Random) -> Vec<AmendCall> {
    let mut calls = vec![];
    for (job, file, length) in [(20, 1, 10), (30, 2, 6)] {
        let mut call = call(job, &amendment(), &day(), length);
        for (which, bytes) in [(1, &mut call.amendment), (2, &mut call.day)] {
            for row in rows(bytes).into_iter().filter(|row| (which, row.job) != (file, job)) {
                bytes[row.tag().start] ^= 0x40;
            }
        }
        let found = call.answer(&REFERENCE).amended;
        calls.push(expected(call, (0, file, found.row), (0, file, 0)));
    }
    calls
}

/// Full tables, and a row of each suite in either file.
fn tables(_: &mut Random) -> Vec<AmendCall> {
    let full = files::many_rows_plan(512);
    let mut calls = vec![];
    for job in [0, 10, 5110, 5115] {
        calls.push(call(job, &amendment(), &full.in_edition(2), 0));
    }
    for job in 0..7 {
        let length = all_suites().entries.get(job as usize).map_or(0, |entry| entry.message.len());
        calls.push(call(job, &all_suites().in_edition(2), &amendment(), length));
        calls.push(call(job, &amendment(), &all_suites(), length));
    }
    calls
}

/// A random day's file, a random amendment of some of its jobs, and a job of one of them.
fn random_call(random: &mut Random) -> AmendCall {
    let counts = [random.below(7), random.below(4)];
    let day = files::random_plan(random, counts[0], 30);
    let mut amendment = files::random_plan(random, counts[1], 30);
    for (entry, other) in amendment.entries.iter_mut().zip(&day.entries) {
        entry.job = other.job;
        entry.ad[..4].copy_from_slice(&other.ad[..4]);
    }
    let jobs: Vec<(u32, usize)> = [&amendment, &day]
        .iter()
        .flat_map(|plan| plan.entries.iter().map(|entry| (entry.job, entry.message.len())))
        .collect();
    let (job, length) = if jobs.is_empty() { (5, 0) } else { jobs[random.below(jobs.len())] };
    let job = if random.below(12) == 0 { job + 1 } else { job };
    let [amendment, day] = [amendment, day].map(|plan| plan.in_edition(1 + random.below(2)));
    call(job, &amendment, &day, length)
}

fn random_files(random: &mut Random) -> Vec<AmendCall> {
    (0..30).map(|_| random_call(random)).collect()
}

/// All calls of the test data.
pub fn calls() -> Vec<AmendCall> {
    let mut random = Random::new(15);
    let groups = [good, refused_checks, openings, elsewhere, tables, random_files];
    groups.into_iter().flat_map(|group| group(&mut random)).collect()
}

/// Random amendments, good and edited, sometimes with a wrong ring or output.
pub fn trials(random: &mut Random, count: usize, mut each: impl FnMut(&AmendCall)) {
    for _ in 0..count {
        let mut call = random_call(random);
        for file in [&mut call.amendment, &mut call.day] {
            if random.below(4) == 0 {
                let rows = rows(file).len();
                edit(random, file, rows);
            }
        }
        misuse_ring(random, &mut call.ring, &mut call.out);
        each(&call);
    }
}

/// The longest file, and one that is a byte longer, as the amendment and as the day's file.
pub fn longest(mut each: impl FnMut(&AmendCall)) {
    let (longest, small) = (files::longest(), amendment().file(&samples::ring()));
    let mut longer = longest.clone();
    longer.push(0);
    let pairs = [(&small, &longest), (&longest, &small), (&small, &longer), (&longer, &small)];
    for (amendment, day) in pairs {
        for job in [16, 20, 17] {
            let (amendment, day) = (amendment.clone(), day.clone());
            each(&AmendCall { job, amendment, day, ring: samples::ring(), out: 10 });
        }
    }
}
