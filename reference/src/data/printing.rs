//! Cases for `test_shift`: what the plant's programs print.

use super::{amending, comparing, files, reading, samples, Part};
use crate::calls::head;
use crate::plan::{Entry, Plan};
use crate::random::Random;
use crate::shift::{rows, EDITIONS};
use crate::{difference, printed, report};

/// A run of a program on the bytes of its files.
#[derive(Clone)]
pub enum PrintCall {
    Job { file: Vec<u8>, ring: Vec<u8>, job: u32 },
    Current { amendment: Vec<u8>, day: Vec<u8>, ring: Vec<u8>, job: u32 },
    Differ { first: Vec<u8>, second: Vec<u8> },
    Inspect { file: Vec<u8>, ring: Vec<u8> },
}

use PrintCall::{Current, Differ, Inspect, Job};

impl PrintCall {
    /// What the program prints.
    pub fn printed(&self) -> String {
        match self {
            Job { file, ring, job } => printed::job(file, ring, *job),
            Current { amendment, day, ring, job } => printed::current(amendment, day, ring, *job),
            Differ { first, second } => difference::printed(first, second),
            Inspect { file, ring } => report::printed(file, ring),
        }
    }

    fn record(&self) -> Vec<u8> {
        let (op, job, files): (u8, u32, Vec<&Vec<u8>>) = match self {
            Job { file, ring, job } => (6, *job, vec![file, ring]),
            Current { amendment, day, ring, job } => (7, *job, vec![amendment, day, ring]),
            Differ { first, second } => (8, 0, vec![first, second]),
            Inspect { file, ring } => (9, 0, vec![file, ring]),
        };
        let lengths: Vec<usize> = files.iter().map(|file| file.len()).collect();
        let mut bytes = head(op, 0, job, &lengths);
        files.iter().for_each(|file| bytes.extend(*file));
        bytes
    }
}

fn job(file: &[u8], job: u32) -> PrintCall {
    Job { file: file.to_vec(), ring: samples::ring(), job }
}

fn differ(first: &[u8], second: &[u8]) -> PrintCall {
    Differ { first: first.to_vec(), second: second.to_vec() }
}

fn inspect(file: &[u8]) -> PrintCall {
    Inspect { file: file.to_vec(), ring: samples::ring() }
}

/// A good file, and one for each status of the check.
fn checked() -> Vec<Vec<u8>> {
    let ring = samples::ring();
    let mut all = vec![files::three_rows().file(&ring), vec![], vec![1; 7], files::three_rows().draft()];
    for status in files::ORDER {
        let mut plan = files::three_rows();
        files::fault(&mut plan, status, 1);
        all.push(plan.file(&ring));
    }
    all
}

/// Messages and associated data that are shown as text, in hex, and as empty.
fn shown() -> Plan {
    let pieces: [&[u8]; 9] =
        [b"", b" ", b"~", b"\x1f", b"\x7f", b"a line\n", "48,5 N\u{b7}m".as_bytes(), b"\0", b"\"text\" hex 00"];
    let entry = |(i, message): (usize, &&[u8])| {
        let (job, suite) = (i as u32 + 1, [1, 2, 3, 4, 5, 6][i % 6]);
        let mut entry = Entry::new(job, suite, i as u8, 1 + (i % 2) as u8, [i as u8; 16], message);
        entry.ad.extend(pieces[(i + 4) % pieces.len()]);
        entry.station = [0, 7, u32::MAX][i % 3];
        entry
    };
    Plan::new(pieces.iter().enumerate().map(entry).collect())
}

/// A file with one job, whose message has the greatest length.
fn longest(byte: u8) -> Vec<u8> {
    let mut entry = Entry::new(u32::MAX, 6, 15, 2, [9; 16], &vec![byte; 65_536]);
    entry.ad.resize(1024, byte);
    entry.station = u32::MAX;
    Plan::new(vec![entry]).in_edition(2).file(&samples::ring())
}

/// Ordinary text, and both sides of every limit of what is shown as text: sequences of one to four bytes, control
/// characters, characters that set the direction of writing or end a line, the byte order mark.
const TEXTS: [&str; 32] = [
    "48,5 N\u{b7}m \u{b1} 0,2",
    "gepr\u{fc}ft: M\u{fc}ller, \u{141}\u{f3}d\u{17a}, \u{5927}\u{962a}",
    "\u{1f}",
    " ~",
    "\u{7f}",
    "\u{80}",
    "\u{9f}",
    "\u{a0}",
    "\u{7ff}\u{800}",
    "\u{61b}\u{61d}",
    "\u{61c}",
    "\u{200d}\u{2010}",
    "\u{200e}",
    "\u{200f}",
    "\u{2027}\u{202f}",
    "\u{2028}",
    "\u{2029}",
    "\u{202a}",
    "48 N\u{b7}m\u{202e}m\u{b7}N 84",
    "\u{2065}\u{206a}",
    "\u{2066}",
    "\u{2069}",
    "\u{d7ff}\u{e000}",
    "\u{fefe}\u{ff00}",
    "\u{feff}bar",
    "\u{ffff}\u{10000}",
    "\u{10ffff}",
    "\u{1f600}\n",
    "\u{e9}\u{85}",
    "\u{20ac}\0",
    "\u{1b}[2J",
    "\u{9b}2J",
];

/// Bytes that are not UTF-8: continuation bytes alone, truncated and broken sequences, overlong forms, surrogates, values
/// above the last code point, invalid first bytes.
const NO_TEXTS: [&[u8]; 30] = [
    b"\x80",
    b"48 N\xb7m",
    b"\xbf",
    b"\xc2",
    b"48 \xc2",
    b"\xe2\x82",
    b"\xf0\x9f\x98",
    b"\xc3(",
    b"\xc3\xc3",
    b"\xe2(\x82",
    b"\xe2\x82(",
    b"\xe2\x82\xc0",
    b"\xf0(\x8c\xbc",
    b"\xf0\x90(\xbc",
    b"\xf0\x90\x8c(",
    b"\xc0\x80",
    b"\xc0\xaf",
    b"\xc1\xbf",
    b"\xe0\x80\xaf",
    b"\xe0\x9f\xbf",
    b"\xf0\x80\x80\xaf",
    b"\xf0\x8f\xbf\xbf",
    b"\xed\xa0\x80",
    b"\xed\xbf\xbf",
    b"\xf4\x90\x80\x80",
    b"\xf7\xbf\xbf\xbf",
    b"\xf8\x88\x80\x80\x80",
    b"\xfe",
    b"\xff",
    b"\xc3\xa9\xa9",
];

/// One job for each of these byte strings as its message, with the previous one as its associated data.
fn characters() -> Vec<PrintCall> {
    let pieces: Vec<&[u8]> = TEXTS.iter().map(|text| text.as_bytes()).chain(NO_TEXTS).collect();
    let call = |i: usize| {
        let mut entry = Entry::new(i as u32, 3, 1, 1, [i as u8; 16], pieces[i]);
        entry.ad.extend(pieces[(i + pieces.len() - 1) % pieces.len()]);
        job(&Plan::new(vec![entry]).file(&samples::ring()), i as u32)
    };
    (0..pieces.len()).map(call).collect()
}

fn jobs() -> Vec<PrintCall> {
    let mut calls = vec![];
    for edition in EDITIONS {
        for plan in [shown(), files::three_rows()] {
            let file = plan.in_edition(edition).file(&samples::ring());
            calls.extend(plan.entries.iter().map(|entry| job(&file, entry.job)));
            calls.extend([0, u32::MAX].map(|absent| job(&file, absent)));
        }
    }
    let day = samples::day();
    calls.extend(rows(&day).iter().map(|row| job(&day, row.job)));
    calls.extend(checked().iter().map(|file| job(file, 20)));
    for length in [0, 255, 257] {
        let mut ring = samples::ring();
        ring.resize(length, 0);
        calls.push(Job { file: day.clone(), ring, job: 4103 });
    }
    let mut damaged = day.clone();
    damaged[rows(&day)[2].tag().start] ^= 1;
    calls.extend([4103, 4102].map(|number| job(&damaged, number)));
    calls.extend([b'x', 0xff].map(|byte| job(&longest(byte), u32::MAX)));
    calls
}

fn currents() -> Vec<PrintCall> {
    amending::calls()
        .into_iter()
        .step_by(3)
        .map(|call| Current { amendment: call.amendment, day: call.day, ring: call.ring, job: call.job })
        .collect()
}

fn compared() -> Vec<PrintCall> {
    let (day, later, stations) = (samples::day(), samples::later_day(), samples::stations());
    let empty = Plan::new(vec![]).file(&[]);
    let [full, wide] = [1, 2].map(|edition| files::many_rows_plan(512).in_edition(edition).file(&samples::ring()));
    let mut calls = vec![];
    for pair in [(&day, &later), (&day, &day), (&day, &stations), (&empty, &empty), (&day, &empty), (&full, &wide)] {
        calls.extend([differ(pair.0, pair.1), differ(pair.1, pair.0)]);
    }
    calls.extend(checked().iter().flat_map(|file| [differ(file, &day), differ(&day, file)]));
    calls.extend(comparing::calls().into_iter().step_by(5).map(|call| differ(&call.files[0], &call.files[1])));
    calls
}

fn inspected() -> Vec<PrintCall> {
    let mut calls: Vec<PrintCall> = reading::calls()
        .into_iter()
        .filter(|call| call.file.len() > 65_000)
        .map(|call| Inspect { file: call.file, ring: call.ring })
        .collect();
    for edition in EDITIONS {
        let file = files::three_rows().in_edition(edition).file(&samples::ring());
        for wrong in 0..8 {
            let mut damaged = file.clone();
            for (i, row) in rows(&file).iter().enumerate() {
                damaged[row.tag().start] ^= wrong >> i & 1;
            }
            calls.push(inspect(&damaged));
        }
        calls.push(inspect(&Plan::new(vec![]).in_edition(edition).file(&[])));
        calls.push(inspect(&files::many_rows_plan(512).in_edition(edition).file(&samples::ring())));
    }
    calls.extend(checked().iter().map(|file| inspect(file)));
    for length in [0, 255, 257] {
        calls.push(Inspect { file: samples::day(), ring: vec![0; length] });
    }
    calls
}

/// A few runs on random files, of each program.
fn random_runs(random: &mut Random) -> Vec<PrintCall> {
    let mut calls = vec![];
    for _ in 0..20 {
        let rows = random.below(6);
        let plan = files::random_plan(random, rows, 90).in_edition(1 + random.below(2));
        let file = plan.file(&samples::ring());
        calls.extend(plan.entries.iter().map(|entry| job(&file, entry.job)));
        calls.push(inspect(&file));
        calls.push(differ(&file, &samples::day()));
    }
    calls
}

/// All runs of the test data.
pub fn calls() -> Vec<PrintCall> {
    let mut random = Random::new(19);
    [jobs(), currents(), compared(), inspected(), random_runs(&mut random), characters()].concat()
}

/// The input and the output of `test_shift` for these runs.
pub fn parts() -> [Part; 2] {
    let calls = calls();
    let stdout: String = calls.iter().map(PrintCall::printed).collect();
    [("stdin", calls.iter().flat_map(PrintCall::record).collect()), ("stdout", stdout.into_bytes())]
}
