//! Cases for `test_writer` and `write`: drafts sealed, and files unsealed.

use super::{files, samples, Part};
use crate::calls::{head, Case, Library, FILLER, REFERENCE};
use crate::comet;
use crate::plan::{row_at, Entry, Plan};
use crate::random::Random;
use crate::shift::{self, rows};
use crate::show::shown;
use crate::trials::{edit, misuse_ring};

/// A function that reads a file and a ring and writes a file.
#[derive(Clone, Copy, PartialEq)]
pub enum Pass {
    Seal,
    Unseal,
    Reseal,
}

#[derive(Clone)]
pub struct RewriteCall {
    pub pass: Pass,
    pub file: Vec<u8>,
    pub ring: Vec<u8>,
    pub out: usize,
}

#[derive(PartialEq)]
pub struct RewriteOutcome {
    pub answer: shift::Answer,
    pub out: Vec<u8>,
}

impl Case for RewriteCall {
    type Outcome = RewriteOutcome;

    fn answer(&self, by: &Library) -> RewriteOutcome {
        let mut out = vec![FILLER; self.out];
        let rewrite = match self.pass {
            Pass::Seal => by.seal_file,
            Pass::Unseal => by.unseal_file,
            Pass::Reseal => by.reseal,
        };
        RewriteOutcome { answer: rewrite(&self.file, &self.ring, &mut out), out }
    }

    fn record(&self) -> Vec<u8> {
        let op = match self.pass {
            Pass::Seal => 0,
            Pass::Unseal => 1,
            Pass::Reseal => 2,
        };
        let head = head(op, 0, 0, &[self.file.len(), self.ring.len(), self.out]);
        [&head[..], &self.file, &self.ring].concat()
    }

    fn lines(&self, by: &Library) -> String {
        let RewriteOutcome { answer: (status, row), out } = self.answer(by);
        format!("{status} {row} {}\n", shown(&out))
    }
}

/// A call with the samples' ring and an output of the file's length.
pub fn call(pass: Pass, file: Vec<u8>) -> RewriteCall {
    RewriteCall { pass, out: file.len(), file, ring: samples::ring() }
}

/// The call, after a check that it returns the expected status and row.
pub fn expected(call: RewriteCall, status: u32, row: usize) -> RewriteCall {
    assert_eq!(call.answer(&REFERENCE).answer, (status, row as u32));
    call
}

/// A plan's draft sealed and its file unsealed, after a check that each outputs the other. A draft with suite 4 is refused.
fn both_ways(plan: &Plan) -> [RewriteCall; 2] {
    let (draft, file) = (plan.draft(), plan.file(&samples::ring()));
    let (seal, unseal) = (call(Pass::Seal, draft.clone()), call(Pass::Unseal, file.clone()));
    let sealed = match plan.entries.iter().position(|entry| comet::is_retired(entry.suite)) {
        None => RewriteOutcome { answer: (0, 0), out: file },
        Some(row) => RewriteOutcome { answer: (10, row as u32), out: vec![FILLER; file.len()] },
    };
    assert!(seal.answer(&REFERENCE) == sealed);
    assert!(unseal.answer(&REFERENCE) == RewriteOutcome { answer: (0, 0), out: draft });
    [seal, unseal]
}

/// The plan with suite 3 in offset of suite 4, so that its draft can be sealed.
fn sealable(plan: &Plan) -> Plan {
    plan.resuited(4, 3)
}

/// A row of each suite, with longer messages.
pub fn all_suites() -> Plan {
    let mut random = Random::new(9);
    let entry = |i: u32| {
        let length = [0, 5, 16, 40, 33, 9][i as usize];
        Entry::new(i, comet::SUITES[i as usize], 3 * i as u8, 1, random.array(), &random.bytes(length))
    };
    Plan::new((0..comet::SUITES.len() as u32).map(entry).collect())
}

/// Plans of no row, one, three, one of each suite, and a full table; and random ones. Then plans with rows of suite 4.
fn good(random: &mut Random) -> Vec<RewriteCall> {
    let smallest = Plan::new(vec![Entry::new(7, 3, 0, 1, [0; 16], b"")]);
    let mut plans = vec![files::three_rows(), all_suites(), files::many_rows_plan(512)];
    plans.extend((0..10).map(|rows| files::random_plan(random, rows, 100)));
    let current = [Plan::new(vec![]), smallest].into_iter().chain(plans.iter().map(sealable));
    let current: Vec<RewriteCall> = current.flat_map(|plan| both_ways(&plan)).collect();
    plans.remove(2);
    [current, plans.iter().flat_map(both_ways).collect()].concat()
}

/// The input of a pass for a plan: its draft or its file.
fn input(pass: Pass, plan: &Plan) -> Vec<u8> {
    if pass == Pass::Seal {
        plan.draft()
    } else {
        plan.file(&samples::ring())
    }
}

/// Each status of the check, alone and together with every later fault.
fn refused_checks(_: &mut Random) -> Vec<RewriteCall> {
    let mut calls = vec![];
    for pass in [Pass::Seal, Pass::Unseal] {
        for status in [20].into_iter().chain(files::ORDER) {
            let (mut plan, row) = (files::three_rows(), files::OF_ROWS.contains(&status) as usize);
            if status > 20 {
                files::fault(&mut plan, status, 1);
            }
            let mut file = input(pass, &plan);
            if status == 20 {
                file.truncate(7);
            }
            calls.push(expected(call(pass, file.clone()), status, row));
            if status >= 25 {
                *file.last_mut().unwrap() ^= 1;
            }
            calls.push(expected(RewriteCall { pass, file, ring: vec![0; 255], out: 3 }, status, row));
        }
        let other = if pass == Pass::Seal { files::three_rows().file(&samples::ring()) } else { all_suites().draft() };
        calls.push(expected(call(pass, other), 21, 0));
        calls.push(expected(call(pass, sealable(&all_suites()).in_edition(2).file(&samples::ring())), 21, 0));
    }
    calls
}

/// 33, 2 and 6 of sealing, and 2, 6 and 8 of unsealing: each alone and in pairs, in all variants.
fn refused(_: &mut Random) -> Vec<RewriteCall> {
    let mut calls = vec![];
    for pass in [Pass::Seal, Pass::Unseal] {
        let plan = if pass == Pass::Seal { sealable(&all_suites()) } else { all_suites() };
        let good = call(pass, input(pass, &plan));
        let length = good.file.len();
        let with = |ring: usize, out: usize| {
            let mut call = RewriteCall { out, ..good.clone() };
            call.ring.resize(ring, FILLER);
            call
        };
        for ring in [0, 16, 255, 257] {
            calls.extend([expected(with(ring, length), 2, 0), expected(with(ring, length + 1), 2, 0)]);
        }
        for out in [0, length - 1, length + 1, 2 * length] {
            calls.push(expected(with(256, out), 6, 0));
        }
        let status = if pass == Pass::Seal { 33 } else { 8 };
        for (i, row) in rows(&good.file).iter().enumerate() {
            for offset in [row.tag().start, row.tag().end - 1] {
                let mut damaged = good.clone();
                damaged.file[offset] ^= 0x80;
                calls.push(expected(damaged.clone(), status, i));
                let others =
                    [RewriteCall { ring: vec![], out: 0, ..damaged.clone() }, RewriteCall { out: 0, ..damaged }];
                let [ring, out] = if pass == Pass::Seal { [(33, i), (33, i)] } else { [(2, 0), (6, 0)] };
                let [other_ring, other_out] = others;
                calls.extend([expected(other_ring, ring.0, ring.1), expected(other_out, out.0, out.1)]);
            }
        }
        let mut two = good.clone();
        for row in &rows(&good.file)[2..] {
            two.file[row.tag().start] ^= 1;
        }
        calls.push(expected(two, status, 2));
    }
    calls
}

/// 10 of a draft, with the first row of suite 4: it comes before 2 and 6, and after 33 in any row.
fn retired(_: &mut Random) -> Vec<RewriteCall> {
    let mut calls = vec![];
    for (suites, row) in [([4, 1, 3, 2], 0), ([1, 4, 4, 3], 1), ([3, 1, 2, 4], 3), ([4, 4, 4, 4], 0)] {
        let mut plan = all_suites();
        for (entry, suite) in plan.entries.iter_mut().zip(suites) {
            (entry.suite, entry.nonce[15]) = (suite, 0);
        }
        let good = call(Pass::Seal, plan.draft());
        calls.push(expected(good.clone(), 10, row));
        calls.push(expected(RewriteCall { ring: vec![], ..good.clone() }, 10, row));
        calls.push(expected(RewriteCall { out: 3, ..good.clone() }, 10, row));
        calls.push(expected(RewriteCall { ring: vec![0; 257], out: 0, ..good.clone() }, 10, row));
        for (i, of_draft) in rows(&good.file).iter().enumerate() {
            let mut dirty = good.clone();
            dirty.file[of_draft.tag().start] = 1;
            calls.push(expected(dirty, 33, i));
        }
    }
    calls
}

/// Files with one byte changed that a tag covers: in the associated data, the text, the nonce, the key number, and the
/// ring. In a draft the same change is no fault.
fn altered(_: &mut Random) -> Vec<RewriteCall> {
    let mut calls = vec![];
    for i in 1..comet::SUITES.len() {
        let file = all_suites().file(&samples::ring());
        let row = &rows(&file)[i];
        let at = row_at(i);
        let changes =
            [(row.offset + 4, 3), (row.text().start, 1), (row.text().end - 1, 0x80), (at + 16, 1), (at + 5, 1)];
        for (offset, x) in changes {
            let mut altered = call(Pass::Unseal, file.clone());
            altered.file[offset] ^= x;
            calls.push(expected(altered, 8, i));
        }
        let mut other_ring = call(Pass::Unseal, file.clone());
        other_ring.ring[16 * row.key as usize] ^= 1;
        calls.push(expected(other_ring, 8, i));
        let mut draft = call(Pass::Seal, sealable(&all_suites()).draft());
        draft.file[row.offset + 4] ^= 3;
        draft.file[row.text().start] ^= 1;
        calls.push(expected(draft, 0, 0));
    }
    calls
}

/// All calls of the test data.
pub fn calls() -> Vec<RewriteCall> {
    let mut random = Random::new(8);
    let groups = [good, refused_checks, refused, retired, altered];
    groups.into_iter().flat_map(|group| group(&mut random)).collect()
}

/// Random drafts and files, good and edited, sometimes with a wrong ring or output.
pub fn trials(random: &mut Random, count: usize, mut each: impl FnMut(&RewriteCall)) {
    for _ in 0..count {
        let pass = [Pass::Seal, Pass::Unseal][random.below(2)];
        let (row_count, longest) = (random.below(9), [0, 20, 100][random.below(3)]);
        let mut plan = files::random_plan(random, row_count, longest);
        if random.below(4) > 0 {
            plan = sealable(&plan);
        }
        let mut call = call(pass, input(pass, &plan));
        for _ in 0..random.below(3) {
            edit(random, &mut call.file, row_count);
        }
        call.out = call.file.len();
        misuse_ring(random, &mut call.ring, &mut call.out);
        each(&call);
    }
}

/// Five changes of every byte of drafts and of files.
pub fn single_bytes(mut each: impl FnMut(&RewriteCall)) {
    for call in [sealable(&files::three_rows()), files::three_rows()].iter().flat_map(both_ways) {
        for (offset, x) in (0..call.file.len()).flat_map(|offset| [1, 2, 4, 0x80, 0xff].map(|x| (offset, x))) {
            let mut changed = call.clone();
            changed.file[offset] ^= x;
            each(&changed);
        }
    }
}

/// The files of the program `write`: it seals the sample draft.
pub fn write_parts() -> [Part; 4] {
    let draft = samples::draft();
    let (status, row) = call(Pass::Seal, draft.clone()).answer(&REFERENCE).answer;
    [
        ("args", b"day.draft\nring.keys\nday.shift\n".to_vec()),
        ("data/day.draft", draft),
        ("data/ring.keys", samples::ring()),
        ("stdout", format!("{status} {row}\n").into_bytes()),
    ]
}
