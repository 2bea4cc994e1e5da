//! Cases for `test_writer`: files whose entries of suite 4 are resealed as suite 3.

use super::writing::{all_suites, call, expected, Pass, RewriteCall, RewriteOutcome};
use super::{files, samples};
use crate::calls::{Case, FILLER, REFERENCE};
use crate::plan::{row_at, Entry, Plan};
use crate::random::Random;
use crate::shift::rows;
use crate::trials::{edit, misuse_ring};

fn reseal(plan: &Plan) -> RewriteCall {
    call(Pass::Reseal, plan.file(&samples::ring()))
}

/// The call on a plan's file, after a check that it outputs the file of the same plan under suite 3.
fn good_call(plan: &Plan) -> RewriteCall {
    let (call, out) = (reseal(plan), plan.resuited(4, 3).file(&samples::ring()));
    assert!(call.answer(&REFERENCE) == RewriteOutcome { answer: (0, 0), out });
    call
}

/// A plan with a row of each of these suites, key number i in row i, and messages around a block's length.
fn of_suites(suites: &[u8]) -> Plan {
    let mut random = Random::new(12);
    let entry = |(i, suite): (usize, &u8)| {
        let message = random.bytes([0, 7, 8, 9, 30][i % 5]);
        let mut entry = Entry::new(10 * i as u32, *suite, i as u8, 2, random.array(), &message);
        entry.ad.extend(random.bytes(i % 4));
        entry
    };
    Plan::new(suites.iter().enumerate().map(entry).collect())
}

/// Files with no rows, with no, some and only rows of suite 4, with a full table; and random files.
fn good(random: &mut Random) -> Vec<RewriteCall> {
    let suites: [&[u8]; 7] = [&[], &[3], &[4], &[1, 2, 3, 1], &[4, 1, 4, 3, 4], &[4; 9], &[3, 4, 3, 4, 2, 4]];
    let mut plans: Vec<Plan> = suites.map(of_suites).to_vec();
    plans.extend([files::three_rows(), all_suites(), files::many_rows_plan(512)]);
    plans.extend((1..9).map(|rows| files::random_plan(random, rows, 60)));
    plans.iter().map(good_call).collect()
}

/// Wrong tags in entries of other suites: they are copied unchanged.
fn unchecked(_: &mut Random) -> Vec<RewriteCall> {
    let plan = of_suites(&[1, 4, 3, 2, 4]);
    let good = good_call(&plan);
    let mut calls = vec![];
    for row in rows(&good.file).iter().filter(|row| row.suite != 4) {
        for offset in [row.tag().start, row.tag().end - 1, row.offset + 4, row.text().start] {
            let mut damaged = good.clone();
            damaged.file[offset] ^= if offset == row.offset + 4 { 3 } else { 0x40 };
            let mut out = good.answer(&REFERENCE).out;
            out[offset] = damaged.file[offset];
            assert!(damaged.answer(&REFERENCE) == RewriteOutcome { answer: (0, 0), out });
            calls.push(damaged);
        }
    }
    calls
}

/// Rows, each as suite, key number and first nonce byte, and the status and row of resealing them.
type Clash = (&'static [(u8, u8, u8)], u32, usize);

/// Rows that would clash after resealing are refused with 29 and the lowest later row.
const CLASHES: [Clash; 12] = [
    (&[(3, 0, 1), (4, 0, 1)], 29, 1),
    (&[(4, 0, 1), (3, 0, 1)], 29, 1),
    (&[(4, 0, 1), (3, 1, 1)], 0, 0),
    (&[(4, 0, 1), (3, 0, 2)], 0, 0),
    (&[(4, 0, 1), (4, 1, 1), (3, 2, 1)], 0, 0),
    (&[(4, 0, 1), (1, 0, 1), (2, 0, 1)], 0, 0),
    (&[(4, 5, 1), (1, 0, 0), (3, 5, 1)], 29, 2),
    (&[(3, 0, 1), (3, 1, 1), (4, 1, 1), (4, 0, 1)], 29, 2),
    (&[(3, 0, 1), (3, 1, 1), (4, 0, 1), (4, 1, 1)], 29, 2),
    (&[(4, 0, 1), (4, 1, 1), (4, 2, 1), (3, 2, 1)], 29, 3),
    (&[(4, 0, 1), (4, 1, 1), (3, 1, 1), (3, 0, 1)], 29, 2),
    (&[(1, 0, 1), (4, 0, 1), (2, 0, 1), (3, 0, 1), (3, 1, 1)], 29, 3),
];

fn of_nonces(rows: &[(u8, u8, u8)]) -> Plan {
    let entry = |(i, (suite, key, first)): (usize, &(u8, u8, u8))| {
        let mut nonce = [0x77; 16];
        nonce[0] = *first;
        Entry::new(i as u32, *suite, *key, 1, nonce, b"clash")
    };
    Plan::new(rows.iter().enumerate().map(entry).collect())
}

/// Files in which two rows would clash after resealing, alone and together with wrong tags, ring and output.
fn clashes(_: &mut Random) -> Vec<RewriteCall> {
    let mut calls = vec![];
    for (of_rows, status, row) in CLASHES {
        let one = reseal(&of_nonces(of_rows));
        calls.push(expected(one.clone(), status, row));
        let mut wrong = one.clone();
        for row in rows(&one.file) {
            wrong.file[row.tag().start] ^= 1;
        }
        let first = of_rows.iter().position(|row| row.0 == 4).unwrap();
        let (ring, out) = if status == 29 { (29, 29) } else { (2, 6) };
        calls.push(expected(wrong.clone(), status.max(8), if status == 29 { row } else { first }));
        calls.push(expected(RewriteCall { ring: vec![0; 255], out: 1, ..wrong.clone() }, ring, row));
        calls.push(expected(RewriteCall { out: 1, ..wrong }, out, row));
    }
    calls
}

/// Each status of the check, alone and together with every later fault; a draft and a later edition are 21.
fn refused_checks(_: &mut Random) -> Vec<RewriteCall> {
    let mut calls = vec![];
    for status in [20].into_iter().chain(files::ORDER) {
        let (mut plan, row) = (files::three_rows(), files::OF_ROWS.contains(&status) as usize);
        plan.entries[0].suite = 4;
        if status > 20 {
            files::fault(&mut plan, status, 1);
        }
        let mut file = plan.file(&samples::ring());
        if status == 20 {
            file.truncate(7);
        }
        calls.push(expected(call(Pass::Reseal, file.clone()), status, row));
        if status >= 25 {
            *file.last_mut().unwrap() ^= 1;
        }
        calls.push(expected(RewriteCall { pass: Pass::Reseal, file, ring: vec![0; 255], out: 3 }, status, row));
    }
    for edition in [0, 3, 0x0100] {
        let plan = Plan { edition: Some(edition), ..files::three_rows() };
        calls.push(expected(reseal(&plan), 21, 0));
    }
    calls.push(expected(reseal(&files::three_rows().in_edition(2)), 21, 0));
    calls
}

/// 2, 6 and 8, each alone and in pairs; 8 has the first row of suite 4 whose tag is wrong.
fn refused(_: &mut Random) -> Vec<RewriteCall> {
    let good = good_call(&of_suites(&[3, 4, 1, 4, 4]));
    let length = good.file.len();
    let mut calls = vec![];
    for ring in [0, 16, 255, 257] {
        for out in [length, length + 1] {
            let mut other = RewriteCall { out, ..good.clone() };
            other.ring.resize(ring, FILLER);
            calls.push(expected(other, 2, 0));
        }
    }
    for out in [0, length - 1, length + 1, 2 * length] {
        calls.push(expected(RewriteCall { out, ..good.clone() }, 6, 0));
    }
    for i in [1, 3, 4] {
        let row = rows(&good.file)[i];
        let at = row_at(i);
        let mut changes = vec![(row.tag().start, 1), (row.tag().end - 1, 0x80), (row.offset + 4, 3), (at + 16, 1)];
        changes.extend([(row.text().start, 1), (row.text().end - 1, 0x10), (at + 5, 8)]);
        for (offset, x) in changes {
            let mut wrong = good.clone();
            wrong.file[offset] ^= x;
            calls.push(expected(wrong.clone(), 8, i));
            calls.push(expected(RewriteCall { out: length - 1, ..wrong.clone() }, 6, 0));
            calls.push(expected(RewriteCall { ring: vec![], ..wrong }, 2, 0));
        }
        let mut other_ring = good.clone();
        other_ring.ring[16 * row.key as usize + 3] ^= 1;
        calls.push(expected(other_ring, 8, i));
    }
    for (wrong, first) in [([3, 4], 3), ([1, 4], 1), ([0, 3], 3)] {
        let mut two = good.clone();
        for i in wrong {
            two.file[rows(&good.file)[i].tag().start] ^= 1;
        }
        calls.push(expected(two, 8, first));
    }
    calls
}

/// All calls of the test data.
pub fn calls() -> Vec<RewriteCall> {
    let mut random = Random::new(11);
    let groups = [good, unchecked, clashes, refused_checks, refused];
    groups.into_iter().flat_map(|group| group(&mut random)).collect()
}

/// Random files, good and edited, some with few different nonces, sometimes with a wrong ring or output.
pub fn trials(random: &mut Random, count: usize, mut each: impl FnMut(&RewriteCall)) {
    for _ in 0..count {
        let row_count = random.below(9);
        let mut plan = files::random_plan(random, row_count, 40);
        if random.below(3) == 0 {
            for entry in &mut plan.entries {
                (entry.suite, entry.key) = (3 + random.below(2) as u8, random.below(3) as u8);
                entry.nonce = [random.below(6) as u8; 16];
                entry.nonce[15] = 0;
            }
        }
        let mut call = reseal(&plan);
        for _ in 0..random.below(3) {
            edit(random, &mut call.file, row_count);
        }
        call.out = call.file.len();
        misuse_ring(random, &mut call.ring, &mut call.out);
        each(&call);
    }
}

/// Single-byte changes of a file of three rows, one of suite 4.
pub fn single_bytes(mut each: impl FnMut(&RewriteCall)) {
    let good = good_call(&files::three_rows());
    for (offset, x) in (0..good.file.len()).flat_map(|offset| [1, 2, 4, 0x80, 0xff].map(|x| (offset, x))) {
        let mut changed = good.clone();
        changed.file[offset] ^= x;
        each(&changed);
    }
}
