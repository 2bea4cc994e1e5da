//! Builders against the reference implementation: the bytes that it lays out, or the status and row of its check.
#![cfg(feature = "alloc")]

use reference::data::{files, samples};
use reference::plan::{Entry, Plan};
use reference::random::Random;
use reference::{comet, shift, writer};
use snoekeldraf::*;
use std::collections::BTreeMap;

/// Number and row, or the bytes.
type Built = Result<Vec<u8>, (u32, u32)>;

fn built(result: Result<Vec<u8>, Refused>) -> Built {
    result.map_err(|refused| (refused.number(), refused.row.unwrap_or(0)))
}

fn suite(entry: &Entry) -> Suite {
    Suite::try_from(entry.suite).unwrap()
}

/// The nonce bytes that the suite reads.
fn nonce(entry: &Entry) -> &[u8] {
    &entry.nonce[..comet::nonce_size(entry.suite)]
}

/// The entry sealed by the reference.
fn sealed(entry: &Entry) -> (Vec<u8>, Vec<u8>) {
    let ring = samples::ring();
    let key = &ring[16 * (entry.key % 16) as usize..][..16];
    comet::specified(entry.suite, key, nonce(entry), &entry.ad, &entry.message)
}

fn file_of(plan: &Plan) -> Built {
    let mut builder = if plan.layout == 2 { FileBuilder::edition2() } else { FileBuilder::edition1() };
    for entry in &plan.entries {
        let (text, tag) = sealed(entry);
        let Entry { job, station, key: key_number, .. } = *entry;
        let (suite, nonce, ad) = (suite(entry), nonce(entry), &entry.ad[..]);
        builder.push(FileEntry { job, station, suite, key_number, nonce, ad, text: &text, tag: &tag });
    }
    built(builder.finish())
}

/// The associated data starts with job and unit.
fn draft_of(plan: &Plan) -> Built {
    let mut builder = DraftBuilder::new();
    for entry in &plan.entries {
        let Entry { job, key: key_number, .. } = *entry;
        let (unit, data, message) = (Unit::try_from(entry.ad[4]).unwrap(), &entry.ad[5..], &entry.message[..]);
        let nonce = Nonce::assume_fresh(nonce(entry)).unwrap();
        builder.push(DraftEntry { job, suite: suite(entry), key_number, nonce, unit, data, message });
    }
    built(builder.finish())
}

fn expected_file(plan: &Plan) -> Built {
    let file = plan.file(&samples::ring());
    match shift::check(&file) {
        (0, _) => Ok(file),
        refused => Err(refused),
    }
}

/// With an empty ring sealing gets 2 where nothing is wrong with the draft itself.
fn expected_draft(plan: &Plan) -> Built {
    let draft = plan.draft();
    match writer::seal_file(&draft, &[], &mut []) {
        (2, _) => Ok(draft),
        refused => Err(refused),
    }
}

/// A change of an entry that a builder can be given. The last two are for files alone.
fn spoil(random: &mut Random, plan: &mut Plan, kinds: usize) {
    let rows = plan.entries.len();
    if rows == 0 {
        return;
    }
    let (i, other) = (random.below(rows), plan.entries[random.below(rows)].clone());
    let (step, length) = (random.below(3) as u32, [1_019, 1_020, 2_000][random.below(3)]);
    let entry = &mut plan.entries[i];
    match random.below(kinds) {
        0 => {
            entry.job = other.job.wrapping_add(step).wrapping_sub(1);
            entry.ad[..4].copy_from_slice(&entry.job.to_le_bytes());
        }
        1 => entry.key = 14 + random.below(4) as u8,
        2 => entry.ad.resize(5 + length, 7),
        3 => entry.message.resize(65_535 + random.below(3), 7),
        4 => (entry.suite, entry.key, entry.nonce) = (other.suite, other.key, other.nonce),
        5 => entry.ad[random.below(4)] ^= 1,
        _ => entry.ad[4] = random.below(4) as u8,
    }
}

fn run(seed: u64, kinds: usize, each: impl Fn(&mut Random, &mut Plan) -> (Built, Built)) -> BTreeMap<u32, usize> {
    let mut random = Random::new(seed);
    let mut seen = BTreeMap::new();
    for turn in 0..6_000 {
        let mut plan = files::random_plan(&mut random, turn % 9, 60);
        for _ in 0..random.below(3) {
            spoil(&mut random, &mut plan, kinds);
        }
        let (got, expected) = each(&mut random, &mut plan);
        *seen.entry(expected.as_ref().map_or_else(|refused| refused.0, |_| 0)).or_default() += 1;
        assert!(got == expected, "{:?} for {:?}", got.map(drop), expected.map(drop));
    }
    seen
}

#[test]
fn files_of_both_editions() {
    let seen = run(161, 7, |random, plan| {
        plan.layout = 1 + random.below(2);
        if plan.layout == 1 {
            *plan = plan.without_stations();
        }
        (file_of(plan), expected_file(plan))
    });
    println!("files built, by number: {seen:?}");
    assert!([0, 25, 26, 27, 29, 30].iter().all(|number| seen[number] > 20));
}

#[test]
fn drafts() {
    let seen = run(162, 5, |random, plan| {
        if random.below(8) > 0 {
            *plan = plan.resuited(4, 6);
        }
        (draft_of(plan), expected_draft(plan))
    });
    println!("drafts built, by number: {seen:?}");
    assert!([0, 10, 25, 26, 27, 29].iter().all(|number| seen[number] > 20));
}

/// 512 rows are taken and 513 are not; 1,048,576 bytes are taken and one more is not.
#[test]
fn limits() {
    for rows in [512, 513] {
        for edition in [1, 2] {
            let plan = files::many_rows_plan(rows).without_stations().in_edition(edition);
            assert!(file_of(&plan) == expected_file(&plan));
        }
    }
    assert_eq!(file_of(&files::many_rows_plan(513).without_stations()), Err((22, 0)));
    let entry = |job: u32, length: usize| Entry::new(job, 6, 0, 2, [job as u8; 16], &vec![7; length]);
    for over in [0, 1] {
        // sixteen rows of 32 bytes, with 5 and 8 bytes beside each message
        let left = FILE_BYTES_MAX + over - 8 - 16 * (32 + 5 + 8) - 15 * 65_500;
        let plan = Plan::new((0..16).map(|job| entry(job, if job == 15 { left } else { 65_500 })).collect());
        assert_eq!(plan.file(&samples::ring()).len(), FILE_BYTES_MAX + over);
        assert!(file_of(&plan) == expected_file(&plan) && file_of(&plan).is_ok() == (over == 0));
        assert!(draft_of(&plan) == expected_draft(&plan));
    }
    let many = Plan::new((0..70_000).map(|job| entry(job, 0)).collect());
    assert_eq!(file_of(&many), Err((20, 0)));
}

/// What cannot be laid out: the first such entry, before everything else.
#[test]
fn entries_that_cannot_be_laid_out() {
    let good = FileEntry {
        job: 7,
        station: 0,
        suite: Suite::Speck64,
        key_number: 0,
        nonce: &[1; 15],
        ad: &[7, 0, 0, 0, 1],
        text: b"",
        tag: &[0; 8],
    };
    let long = vec![0; 65_536];
    let bad = [
        (FileEntry { nonce: &[1; 16], ..good }, 3),
        (FileEntry { nonce: &[], ..good }, 3),
        (FileEntry { tag: &[0; 16], ..good }, 7),
        (FileEntry { tag: &[], nonce: &[], ..good }, 3),
        (FileEntry { ad: &long, ..good }, 27),
        (FileEntry { station: 1, ..good }, 35),
    ];
    for (entry, number) in bad {
        let mut builder = FileBuilder::edition1();
        [good, entry, FileEntry { nonce: &[], ..good }].into_iter().for_each(|entry| builder.push(entry));
        assert_eq!(built(builder.finish()), Err((number, 1)));
    }
    let mut builder = FileBuilder::edition2();
    builder.push(FileEntry { station: 1, ..good });
    assert!(builder.finish().is_ok());
    let mut builder = DraftBuilder::new();
    let nonce = Nonce::assume_fresh(&[1; 16]).unwrap();
    let (suite, unit) = (Suite::Speck64, Unit::InchPounds);
    builder.push(DraftEntry { job: 7, suite, key_number: 0, nonce, unit, data: b"", message: b"" });
    assert_eq!(built(builder.finish()), Err((3, 0)));
}

/// A line server's day: wrenches seal, the server lays out, the reference opens every job; and the file's entries give the
/// file again.
#[test]
fn from_wrench_to_office() {
    let (mut random, ring) = (Random::new(163), Ring::try_from(&samples::ring()[..]).unwrap());
    let mut counters = [NonceCounter::new(b"wrench1").unwrap(), NonceCounter::new(b"wrench 2").unwrap()];
    for rows in 0..40 {
        let (mut builder, mut messages) = (FileBuilder::edition2(), vec![]);
        for job in 0..rows {
            let suite =
                [Suite::Speck64, Suite::Speck64V2, Suite::Aes128, Suite::Cham128, Suite::Aes128V2][random.below(5)];
            let nonce = counters[(suite.nonce_size() == 16) as usize].take().unwrap();
            let (sent, key_number) = (nonce.as_bytes().to_vec(), random.below(16) as u8);
            let length = random.below(90);
            let (ad, message) =
                ([&(job as u32).to_le_bytes()[..], &[1 + job as u8 % 2]].concat(), random.bytes(length));
            let record = Record { ad: &ad, text: &message };
            let (text, tag) = seal_vec(suite, ring.key(key_number).unwrap(), nonce, record).unwrap();
            let (station, tag) = (job as u32 * 7, tag.as_bytes());
            builder.push(FileEntry {
                job: job as u32,
                station,
                suite,
                key_number,
                nonce: &sent,
                ad: &ad,
                text: &text,
                tag,
            });
            messages.push(message);
        }
        let file = builder.finish().unwrap();
        let mut again = FileBuilder::edition2();
        for (entry, message) in ShiftFile::check(&file).unwrap().entries().zip(&messages) {
            let mut out = vec![0; message.len()];
            assert_eq!(shift::open_job(&file, &samples::ring(), entry.unverified_job, &mut out), (0, 0));
            assert_eq!(&out, message);
            again.push(entry.into());
        }
        assert_eq!(again.finish().unwrap(), file);
    }
}
