//! Cases for `test_shift` and `differ`: the comparison of two shift files.

use super::{files, samples, Part};
use crate::calls::{head, Case, Library, FILLER_NUMBER, REFERENCE};
use crate::difference::{printed, Compared};
use crate::plan::{row_at, Entry, Plan};
use crate::random::Random;
use crate::show::list;
use crate::trials::edit;

/// Two files, and the length of each of the three lists.
#[derive(Clone)]
pub struct CompareCall {
    pub files: [Vec<u8>; 2],
    pub places: [usize; 3],
}

#[derive(PartialEq, Debug)]
pub struct CompareOutcome {
    pub answer: Compared,
    pub lists: [Vec<u32>; 3],
}

impl Case for CompareCall {
    type Outcome = CompareOutcome;

    fn answer(&self, by: &Library) -> CompareOutcome {
        let mut lists = self.places.map(|places| vec![FILLER_NUMBER; places]);
        let [one, other, both] = &mut lists;
        let answer = (by.compare)(&self.files[0], &self.files[1], [one, other, both]);
        CompareOutcome { answer, lists }
    }

    fn record(&self) -> Vec<u8> {
        let [first, second] = &self.files;
        let [a, b, c] = self.places;
        let head = head(4, 0, 0, &[first.len(), second.len(), a, b, c]);
        [&head[..], first, second].concat()
    }

    fn lines(&self, by: &Library) -> String {
        let CompareOutcome { answer: Compared { number: status, file, row, counts }, lists } = self.answer(by);
        format!("{status} {file} {row}{}{}\n", list(&counts), lists.map(|jobs| list(&jobs)).concat())
    }
}

fn call(first: Vec<u8>, second: Vec<u8>, places: [usize; 3]) -> CompareCall {
    CompareCall { files: [first, second], places }
}

/// The call, after a check that it returns the expected status, file and row.
fn expected(call: CompareCall, status: u32, file: u32, row: u32) -> CompareCall {
    assert_eq!(call.answer(&REFERENCE).answer, Compared { number: status, file, row, counts: [0; 3] });
    call
}

/// The comparison of two plans' files, after a check that its lists are these: with buffers of exactly their lengths, with
/// longer ones, and with ones that are an element too short.
fn listed(first: &Plan, second: &Plan, lists: [&[u32]; 3]) -> Vec<CompareCall> {
    let places = lists.map(|list| list.len());
    let just = call(first.file(&samples::ring()), second.file(&samples::ring()), places);
    let outcome = just.answer(&REFERENCE);
    assert_eq!((outcome.answer.number, outcome.lists), (0, lists.map(|list| list.to_vec())));
    let mut calls = vec![just.clone(), CompareCall { places: [places[0] + 2, places[1] + 1, places[2] + 3], ..just }];
    for which in (0..3).filter(|which| places[*which] > 0) {
        for base in [places, places.map(|places| places + 1)] {
            let mut short = CompareCall { places: base, ..calls[0].clone() };
            short.places[which] = places[which] - 1;
            calls.push(expected(short, 36, 0, 0));
        }
    }
    calls
}

/// An entry whose fields all follow from its job number.
fn entry(job: u32) -> Entry {
    Entry::new(job, 1 + (job % 3) as u8, (job % 16) as u8, 1, [job as u8; 16], b"message")
}

fn of_jobs(jobs: &[u32]) -> Plan {
    Plan::new(jobs.iter().map(|job| entry(*job)).collect())
}

/// The jobs of two files, and the three lists of their comparison.
type Pair<'a> = (&'a [u32], &'a [u32], [&'a [u32]; 3]);

/// Jobs in one file, in the other and in both; at the ends, in between, and at the limits of 32 bits.
fn jobs(_: &mut Random) -> Vec<CompareCall> {
    let pairs: [Pair; 10] = [
        (&[], &[], [&[], &[], &[]]),
        (&[7], &[], [&[7], &[], &[]]),
        (&[], &[7, 8], [&[], &[7, 8], &[]]),
        (&[7], &[7], [&[], &[], &[]]),
        (&[1, 2, 3], &[4, 5], [&[1, 2, 3], &[4, 5], &[]]),
        (&[4, 5], &[1, 2, 3], [&[4, 5], &[1, 2, 3], &[]]),
        (&[1, 3, 5, 7], &[2, 4, 6], [&[1, 3, 5, 7], &[2, 4, 6], &[]]),
        (&[2, 4, 6, 8], &[1, 2, 5, 8, 9], [&[4, 6], &[1, 5, 9], &[]]),
        (&[0, 0x8000_0000, 0xffff_ffff], &[0x7fff_ffff, 0x8000_0000], [&[0, 0xffff_ffff], &[0x7fff_ffff], &[]]),
        (&[0, 1], &[1, 0xffff_ffff], [&[0], &[0xffff_ffff], &[]]),
    ];
    pairs.iter().flat_map(|(first, second, lists)| listed(&of_jobs(first), &of_jobs(second), *lists)).collect()
}

/// A change of one field of an entry.
type Change = fn(&mut Entry);

/// Changes of suite, key number, associated data (also its length), nonce, message (also its length).
const CHANGES: [Change; 9] = [
    |entry| entry.suite = 1 + entry.suite % 3,
    |entry| entry.key ^= 8,
    |entry| entry.ad.push(0),
    |entry| entry.ad[4] = 2,
    |entry| entry.nonce[0] ^= 1,
    |entry| entry.nonce[14] ^= 0x80,
    |entry| entry.message[3] ^= 1,
    |entry| entry.message.push(0),
    |entry| entry.message.clear(),
];

/// Jobs in both files that differ by each change; the jobs before and after have other offsets and do not differ.
fn differing(_: &mut Random) -> Vec<CompareCall> {
    let base = of_jobs(&[10, 11, 12, 13, 14]);
    let mut calls = vec![];
    for (i, change) in CHANGES.iter().enumerate() {
        let mut other = base.clone();
        let row = i % 5;
        change(&mut other.entries[row]);
        other.entries[row].nonce[15] &= if other.entries[row].suite == 3 { 0 } else { 0xff };
        let job = base.entries[row].job;
        calls.push(listed(&base, &other, [&[], &[], &[job]])[0].clone());
        calls.push(listed(&other, &base, [&[], &[], &[job]])[1].clone());
    }
    let mut moved = base.clone();
    moved.entries.remove(0);
    moved.entries[1].message = b"another".to_vec();
    moved.entries.push(entry(15));
    calls.extend(listed(&base, &moved, [&[10], &[15], &[12]]));
    calls.extend(listed(&moved, &base, [&[15], &[10], &[12]]));
    calls
}

/// A byte of a body changed, also in the tag: bodies are compared without being opened.
fn bodies(_: &mut Random) -> Vec<CompareCall> {
    let file = of_jobs(&[10, 11, 12]).file(&samples::ring());
    let mut calls = vec![];
    for row in crate::shift::rows(&file) {
        for offset in [row.text().start, row.text().end - 1, row.tag().start, row.tag().end - 1] {
            let mut other = file.clone();
            other[offset] ^= 0x20;
            let call = call(file.clone(), other, [0, 0, 1]);
            assert_eq!(call.answer(&REFERENCE).lists[2], [row.job]);
            calls.push(call);
        }
    }
    calls
}

/// Files of different editions: an entry of edition 1 has station 0, and a job whose stations differ is listed.
fn stations(_: &mut Random) -> Vec<CompareCall> {
    let plain = of_jobs(&[10, 11, 12]);
    let (one, mut other) = (plain.in_edition(2), plain.in_edition(2));
    (other.entries[0].station, other.entries[2].station) = (1, 0x8000_0000);
    let mut third = other.clone();
    third.entries[0].station = 0x0100_0001;
    let pairs: [(&Plan, &Plan, &[u32]); 8] = [
        (&plain, &one, &[]),
        (&one, &plain, &[]),
        (&one, &one, &[]),
        (&plain, &other, &[10, 12]),
        (&other, &plain, &[10, 12]),
        (&other, &other, &[]),
        (&one, &other, &[10, 12]),
        (&other, &third, &[10]),
    ];
    pairs.iter().flat_map(|(first, second, jobs)| listed(first, second, [&[], &[], jobs])).collect()
}

/// Full tables: equal ones, with interleaved jobs, and with all entries different.
fn full_tables(_: &mut Random) -> Vec<CompareCall> {
    let plan = files::many_rows_plan(512);
    let (mut interleaved, mut different) = (plan.clone(), plan.clone());
    for entry in &mut interleaved.entries {
        entry.job += 5;
        entry.ad[..4].copy_from_slice(&entry.job.to_le_bytes());
    }
    different.entries.iter_mut().for_each(|entry| entry.ad[4] = 2);
    let files = [&plan, &interleaved, &different].map(|plan| plan.file(&samples::ring()));
    let wide = different.in_edition(2).file(&samples::ring());
    let calls = [
        call(wide, files[2].clone(), [0, 0, 511]),
        call(files[0].clone(), files[0].clone(), [0, 0, 0]),
        call(files[0].clone(), files[1].clone(), [512, 512, 0]),
        call(files[1].clone(), files[0].clone(), [511, 512, 0]),
        call(files[0].clone(), files[2].clone(), [0, 1, 520]),
        call(files[2].clone(), files[0].clone(), [0, 1, 511]),
    ];
    let numbers = calls.each_ref().map(|call| call.answer(&REFERENCE).answer.number);
    assert_eq!(numbers, [0, 0, 0, 36, 0, 36]);
    calls.to_vec()
}

/// A file with the fault of one status of the check, in row 1 if the status has a row.
fn faulty(edition: usize, status: u32) -> Vec<u8> {
    let mut plan = files::three_rows().in_edition(edition);
    if status > 20 {
        files::fault(&mut plan, status, 1);
    }
    let mut file = plan.file(&samples::ring());
    if status == 20 {
        file.truncate(7);
    }
    file
}

/// Each status of the check in the first file, in the second and in both, with lists that are too short.
fn refused(_: &mut Random) -> Vec<CompareCall> {
    let good = files::three_rows().file(&samples::ring());
    let numbers = [20].into_iter().chain(files::ORDER);
    let mut calls = vec![];
    for (status, other) in numbers.clone().zip(numbers.cycle().skip(5)) {
        let row = |status: u32| files::OF_ROWS.contains(&status) as u32;
        calls.push(expected(call(faulty(1, status), good.clone(), [2, 1, 0]), status, 1, row(status)));
        calls.push(expected(call(good.clone(), faulty(1, status), [0, 0, 3]), status, 2, row(status)));
        calls.push(expected(call(faulty(2, status), faulty(1, other), [1, 1, 1]), status, 1, row(status)));
    }
    let draft = files::three_rows().draft();
    calls.push(expected(call(draft.clone(), vec![], [1, 1, 1]), 21, 1, 0));
    calls.push(expected(call(good, draft, [1, 1, 1]), 21, 2, 0));
    calls
}

/// A variant of a plan: some entries changed, some removed and some added.
fn variant(random: &mut Random, plan: &Plan) -> Plan {
    let mut other = plan.clone();
    for entry in &mut other.entries {
        if random.below(3) == 0 {
            let change = CHANGES[random.below(6)];
            change(entry);
            entry.nonce[crate::comet::nonce_size(entry.suite)..].fill(0);
        }
    }
    for _ in 0..random.below(4) {
        if !other.entries.is_empty() {
            let index = random.below(other.entries.len());
            let mut extra = other.entries.remove(index);
            if random.below(2) == 0 {
                extra.job += 1 + random.below(3) as u32;
                extra.ad[..4].copy_from_slice(&extra.job.to_le_bytes());
                other.entries.insert(index, extra);
            }
        }
    }
    other.entries.dedup_by_key(|entry| entry.job);
    other
}

/// Random files compared with variants of them.
fn random_files(random: &mut Random) -> Vec<CompareCall> {
    (0..24).map(|_| random_call(random)).collect()
}

/// A random file, a variant of it or another file, and lists that are mostly long enough.
fn random_call(random: &mut Random) -> CompareCall {
    let rows = random.below(9);
    let first = files::random_plan(random, rows, 30);
    let second = if random.below(6) == 0 { files::random_plan(random, rows, 30) } else { variant(random, &first) };
    let places = [0; 3].map(|_| if random.below(6) == 0 { random.below(3) } else { 3 + random.below(8) });
    let mut files = [first, second].map(|plan| plan.in_edition(1 + random.below(2)).file(&samples::ring()));
    if random.below(2) == 0 {
        files.swap(0, 1);
    }
    CompareCall { files, places }
}

/// All calls of the test data.
pub fn calls() -> Vec<CompareCall> {
    let mut random = Random::new(13);
    let groups = [jobs, differing, bodies, stations, full_tables, refused, random_files];
    groups.into_iter().flat_map(|group| group(&mut random)).collect()
}

/// Random files compared with variants of them, good and edited.
pub fn trials(random: &mut Random, count: usize, mut each: impl FnMut(&CompareCall)) {
    for _ in 0..count {
        let mut call = random_call(random);
        for which in 0..2 {
            if random.below(4) == 0 && call.files[which].len() > row_at(0) {
                let rows = crate::shift::rows(&call.files[which]).len();
                edit(random, &mut call.files[which], rows);
            }
        }
        each(&call);
    }
}

/// The longest file compared with itself, with one body changed, and with a file that is too long.
pub fn longest(mut each: impl FnMut(&CompareCall)) {
    let longest = files::longest();
    let (mut other, mut longer) = (longest.clone(), longest.clone());
    *other.last_mut().unwrap() ^= 1;
    longer.push(0);
    for second in [longest.clone(), other, longer] {
        each(&call(longest.clone(), second.clone(), [1, 1, 1]));
        each(&call(second, longest.clone(), [1, 1, 1]));
    }
}

/// The files of the program `differ`: the sample day, and a later version of it.
pub fn differ_parts() -> [Part; 4] {
    let (first, second) = (samples::day(), samples::later_day());
    let stdout = printed(&first, &second);
    assert_eq!(stdout, "first\n4105\nsecond\n4111\n4300\ndiffer\n4102\n4200\n");
    [
        ("args", b"first.shift\nsecond.shift\n".to_vec()),
        ("data/first.shift", first),
        ("data/second.shift", second),
        ("stdout", stdout.into_bytes()),
    ]
}
