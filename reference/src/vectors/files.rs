//! Shift files: files.json (the full check) and jobs.json (lookup, search, opening).

use super::bytes::text_of;
use super::json::{Object, Value};
use super::{test, Test};
use crate::data::files::{fault, long_file, many_rows_plan, smallest, smallest_plan, three_rows, OF_ROWS, ORDER};
use crate::data::samples;
use crate::plan::{Entry, Plan};
use crate::shift::{fields_at, row_at, EDITIONS, LONGEST};

/// The name of the rule that a status of the full check reports.
pub fn rule_of(status: u32) -> &'static str {
    let name = format!("status {status}");
    super::rules::RULES.iter().find(|rule| rule.0 == name).expect("a rule").0
}

fn check(comment: impl Into<String>, file: &[u8], status: u32) -> Test {
    let rule = if status == 0 { "the file" } else { rule_of(status) };
    test(comment, rule, Object::call("check").bytes("file", file), status)
}

/// A file with some of its bytes replaced.
pub fn patched(file: &[u8], at: usize, bytes: &[u8]) -> Vec<u8> {
    let mut file = file.to_vec();
    file[at..at + bytes.len()].copy_from_slice(bytes);
    file
}

/// A file cut to a length, with that length in its header.
fn cut(file: &[u8], len: usize) -> Vec<u8> {
    patched(&file[..len], 4, &(len as u32).to_le_bytes())
}

/// The file `three_rows` of an edition, with faults given as (status, row).
fn faulty(edition: usize, faults: &[(u32, usize)]) -> Vec<u8> {
    let mut plan = three_rows();
    faults.iter().for_each(|(status, row)| fault(&mut plan, *status, *row));
    plan.in_edition(edition).file(&samples::ring())
}

fn good_files() -> Vec<Test> {
    let ring = samples::ring();
    let mut tests = vec![check("the file of no rows", &[1, 0, 0, 0, 8, 0, 0, 0], 0)];
    tests.push(check("the file of no rows, edition 2", &[2, 0, 0, 0, 8, 0, 0, 0], 0));
    tests.push(check("the smallest file with a row", &smallest(), 0));
    tests.push(check("the sample day, every suite", &samples::day(), 0));
    tests.push(check("the sample day in edition 2, with stations", &samples::stations(), 0));
    for edition in EDITIONS {
        tests.push(check(format!("three rows, edition {edition}"), &faulty(edition, &[]), 0));
        let full = many_rows_plan(512).in_edition(edition).file(&ring);
        tests.push(check(format!("512 rows, edition {edition}"), &full, 0));
        let long = long_file(edition, LONGEST);
        tests.push(check(format!("1,048,576 bytes, edition {edition}"), &long, 0));
        let mut longer = patched(&long, 4, &(LONGEST as u32 + 1).to_le_bytes());
        longer.push(0);
        tests.push(check(format!("1,048,577 bytes, edition {edition}"), &longer, 20));
    }
    tests
}

/// Files that just pass: the lowest and highest job, one nonce under other suites and keys, the longest associated data.
fn edges() -> Vec<Test> {
    let nonce = [7; 16];
    let mut entries = vec![
        Entry::new(0, 1, 0, 1, nonce, b""),
        Entry::new(1, 2, 0, 2, nonce, b""),
        Entry::new(2, 3, 0, 1, nonce, b"m"),
        Entry::new(0x8000_0000, 3, 15, 1, nonce, b""),
        Entry::new(u32::MAX, 6, 15, 2, nonce, b""),
    ];
    entries[1].ad.resize(1024, 0x5a);
    let file = Plan::new(entries).file(&samples::ring());
    vec![check("one nonce under other suites and key numbers; jobs 0 and 4,294,967,295; 1,024 bytes of data", &file, 0)]
}

/// Each status alone in each row, and together with each later one.
fn refused(edition: usize) -> Vec<Test> {
    let mut tests = vec![];
    let rows_of = |status: u32| if OF_ROWS.contains(&status) { 0..3 } else { 0..1 };
    for status in ORDER {
        let possible = |row: &usize| *row > 0 || ![25, 29].contains(&status);
        for row in rows_of(status).filter(possible).filter(|_| ![22, 24].contains(&status)) {
            let comment = format!("edition {edition}: {status} alone, row {row}");
            tests.push(check(comment, &faulty(edition, &[(status, row)]), status));
        }
    }
    for (index, status) in ORDER.into_iter().enumerate() {
        for later in &ORDER[index + 1..] {
            let comment = format!("edition {edition}: {status} beside {later}, row 1");
            tests.push(check(comment, &faulty(edition, &[(status, 1), (*later, 1)]), status));
        }
    }
    for (row_fault, later) in [(30, 25), (34, 26), (28, 27), (27, 29), (26, 30)] {
        let comment = format!("edition {edition}: {row_fault} in row 0, {later} in row 1: the lower row first");
        tests.push(check(comment, &faulty(edition, &[(row_fault, 0), (later, 1)]), row_fault));
    }
    tests
}

/// The variants of the header's statuses.
fn header_kinds(edition: usize) -> Vec<Test> {
    let file = faulty(edition, &[]);
    let small = smallest_plan().in_edition(edition).file(&samples::ring());
    let table = row_at(edition, 1);
    let len = (file.len() as u32 - 1).to_le_bytes();
    let kinds: Vec<(u32, &str, Vec<u8>)> = vec![
        (20, "7 bytes", file[..7].to_vec()),
        (20, "no bytes", vec![]),
        (21, "edition 0, a draft's", patched(&file, 0, &[0])),
        (21, "edition 257", patched(&file, 1, &[1])),
        (21, "edition 21 beside 22, 23 and 24", patched(&file, 0, &[3, 0, 1, 2, 0, 0, 0, 0])),
        (22, "513 rows", patched(&file, 2, &[1, 2])),
        (22, "65,535 rows", patched(&file, 2, &[255, 255])),
        (23, "the total length is one too low", patched(&file, 4, &len)),
        (23, "the total length is 0", patched(&file, 4, &[0; 4])),
        (23, "the total length is big-endian", patched(&file, 4, &(file.len() as u32).to_be_bytes())),
        (23, "the last byte is missing", file[..file.len() - 1].to_vec()),
        (24, "100 rows", patched(&file, 2, &[100])),
        (24, "a header with one row and nothing after it", cut(&small, 8)),
        (24, "the table's last byte is missing", cut(&small, table - 1)),
        (28, "the table is whole and no body follows", cut(&small, table)),
    ];
    let kind = |(status, what, file): &(u32, &str, Vec<u8>)| {
        check(format!("edition {edition}: {status}: {what}"), file, *status)
    };
    kinds.iter().map(kind).collect()
}

/// The variants of a row's statuses, in row 1 and its body.
fn row_kinds(edition: usize) -> Vec<Test> {
    let file = faulty(edition, &[]);
    let (row, at) = (row_at(edition, 1), fields_at(edition, 1));
    let body = u32::from_le_bytes(file[at + 4..at + 8].try_into().unwrap());
    let kinds: Vec<(u32, &str, usize, Vec<u8>)> = vec![
        (25, "the job of the row before", row, vec![10, 0, 0, 0]),
        (25, "job 0", row, vec![0; 4]),
        (26, "suite 0", at, vec![0]),
        (26, "suite 7", at, vec![7]),
        (26, "key number 16", at + 1, vec![16]),
        (27, "4 bytes of associated data", at + 2, vec![4, 0]),
        (27, "1,025 bytes of associated data", at + 2, vec![1, 4]),
        (27, "a message of 65,537 bytes", at + 8, vec![1, 0, 1, 0]),
        (
            28,
            "the offset counts from the first body",
            at + 4,
            (body - row_at(edition, 3) as u32).to_le_bytes().to_vec(),
        ),
        (28, "the offset is one too low", at + 4, (body - 1).to_le_bytes().to_vec()),
        (28, "the offset is one too high", at + 4, (body + 1).to_le_bytes().to_vec()),
        (28, "the offset is 4,294,967,295", at + 4, vec![255; 4]),
        (28, "the body ends past the file", at + 8, vec![0, 0, 1, 0]),
        (30, "the job number of the associated data is another", body as usize, vec![21]),
        (30, "its highest byte is another", body as usize + 3, vec![1]),
        (30, "unit 0", body as usize + 4, vec![0]),
        (30, "unit 3", body as usize + 4, vec![3]),
    ];
    let kind = |(status, what, at, bytes): &(u32, &str, usize, Vec<u8>)| {
        check(format!("edition {edition}: {status}: {what}, row 1"), &patched(&file, *at, bytes), *status)
    };
    kinds.iter().map(kind).collect()
}

/// The nonces of two rows under one suite and key number.
fn nonces() -> Vec<Test> {
    let pair = |suite: u8, keys: [u8; 2], nonces: [[u8; 16]; 2]| {
        let mut entries: Vec<Entry> = (0..2).map(|i| Entry::new(i as u32, suite, keys[i], 1, nonces[i], b"")).collect();
        (0..2).for_each(|i| entries[i].nonce = nonces[i]);
        Plan::new(entries).file(&samples::ring())
    };
    let [mut same, mut last] = [[9; 16]; 2];
    (same[15], last[15]) = (0, 1);
    vec![
        check("29: suite 1, one nonce twice", &pair(1, [2, 2], [[9; 16]; 2]), 29),
        check("suite 1, nonces that differ in the last byte", &pair(1, [2, 2], [[9; 16], last]), 0),
        check("29: suite 3, one nonce twice", &pair(3, [2, 2], [same; 2]), 29),
        check("34: suite 3, the 16th byte differs and nothing else", &pair(3, [2, 2], [same, last]), 34),
        check("34: suite 3, 16 random bytes for a nonce of 15", &pair(3, [2, 2], [[9; 16], same]), 34),
        check("suite 3, one nonce under two keys", &pair(3, [2, 3], [same; 2]), 0),
    ]
}

pub fn checks() -> Vec<Test> {
    let mut tests = [good_files(), edges(), nonces()].into_iter().flatten().collect::<Vec<Test>>();
    for edition in EDITIONS {
        tests.extend(header_kinds(edition));
        tests.extend(row_kinds(edition));
        tests.extend(refused(edition));
    }
    for edition in EDITIONS {
        let other = patched(&faulty(edition, &[]), 0, &[3 - edition as u8]);
        let status = crate::shift::check(&other).0;
        tests.push(check(
            format!("a file of edition {edition} that calls itself edition {}", 3 - edition),
            &other,
            status,
        ));
    }
    tests.push(check("31: one byte after the last body", &faulty(1, &[(31, 0)]), 31));
    tests.push(check("31: a byte after the header of no rows", &[1, 0, 0, 0, 9, 0, 0, 0, 0], 31));
    tests
}

fn of_job(call: &str, file: &[u8], job: u32) -> Object {
    Object::call(call).bytes("file", file).number("job", job)
}

fn lookups(edition: usize) -> Vec<Test> {
    let file = if edition == 1 { samples::day() } else { samples::stations() };
    let broken = faulty(edition, &[(30, 1)]);
    let mut tests = vec![];
    for (job, status) in [(4101, 0), (4105, 0), (4211, 0), (4104, 32), (0, 32), (u32::MAX, 32)] {
        let comment = format!("edition {edition}: job {job}");
        tests.push(test(format!("{comment}, lookup"), "lookup", of_job("lookup", &file, job), status));
        tests.push(test(format!("{comment}, search"), "search", of_job("search", &file, job), status));
    }
    let comment = format!("edition {edition}: 30 comes before 32");
    tests.push(test(comment, "lookup", of_job("lookup", &broken, 11), 30));
    for (job, status) in [(20, 0), (11, 32)] {
        let comment = format!("edition {edition}: the search does not see 30, job {job}");
        tests.push(test(comment, "search", of_job("search", &broken, job), status));
    }
    let unordered = faulty(edition, &[(25, 2)]);
    for job in [10, 20, 30] {
        let (answer, _) = crate::search::search(&unordered, job);
        let comment = format!("edition {edition}: the search over jobs 10, 20, 20, job {job}");
        tests.push(test(comment, "search", of_job("search", &unordered, job), answer.0));
    }
    tests
}

/// The search in 512 rows, and its refusals.
fn searches() -> Vec<Test> {
    let file = many_rows_plan(512).file(&samples::ring());
    let mut tests = vec![];
    for (job, status) in [(0, 0), (2560, 0), (5110, 0), (5111, 32)] {
        tests.push(test(format!("512 rows, job {job}"), "search", of_job("search", &file, job), status));
    }
    for status in [21, 23] {
        let file = faulty(1, &[(status, 0)]);
        tests.push(test(format!("search: {status}, no row looked at"), "search", of_job("search", &file, 10), status));
    }
    tests
}

fn opening(file: &[u8], ring: &[u8], job: u32, out: usize) -> Object {
    let case = Object::call("open_job").bytes("file", file).bytes("ring", ring);
    case.number("job", job).number("out_len", out as u64)
}

fn openings(edition: usize) -> Vec<Test> {
    let ring = samples::ring();
    let file = if edition == 1 { samples::day() } else { samples::stations() };
    let mut tests = vec![];
    for row in crate::shift::rows(&file) {
        let comment = format!("edition {edition}: job {}, suite {}", row.job, row.suite);
        tests.push(test(comment, "opening a job", opening(&file, &ring, row.job, row.message), 0));
        let [ad, tag] = [row.associated().start + 4, row.tag().end - 1];
        let unit = patched(&file, ad, &[3 - file[ad]]);
        let comment = format!("edition {edition}: job {}, the unit is exchanged", row.job);
        tests.push(test(comment, "after 8", opening(&unit, &ring, row.job, row.message), 8));
        let tag = patched(&file, tag, &[!file[tag]]);
        let comment = format!("edition {edition}: job {}, the last byte of the tag is wrong", row.job);
        tests.push(test(comment, "tag", opening(&tag, &ring, row.job, row.message), 8));
    }
    tests
}

/// 32, 2, 6 and 8 of opening and of verifying a job, alone and together with later ones.
fn opening_order() -> Vec<Test> {
    let (ring, file) = (samples::ring(), samples::day());
    let row = crate::shift::rows(&file)[2];
    let bad = patched(&file, row.text().start, &[!file[row.text().start]]);
    let (short, len) = (&ring[..255], row.message);
    let broken = patched(&file, 0, &[3]);
    let cases = [
        (21, "21 before all", opening(&broken, short, 1, 0)),
        (32, "32 before 2 and 6", opening(&bad, short, 4104, 0)),
        (2, "2: a ring of 255 bytes", opening(&file, short, row.job, len)),
        (2, "2 before 6 and 8", opening(&bad, short, row.job, len + 1)),
        (6, "6: an output one byte too long", opening(&file, &ring, row.job, len + 1)),
        (6, "6 before 8", opening(&bad, &ring, row.job, len - 1)),
        (8, "8: a byte of the ciphertext is another", opening(&bad, &ring, row.job, len)),
    ];
    let mut tests: Vec<Test> =
        cases.into_iter().map(|(status, what, case)| test(what, "opening a job", case, status)).collect();
    let verified = |file: &[u8], ring: &[u8], job: u32| of_job("verified", file, job).bytes("ring", ring);
    let cases = [
        (0, "verified: the associated data of a job", verified(&file, &ring, row.job)),
        (8, "verified: a byte of the ciphertext is another", verified(&bad, &ring, row.job)),
        (2, "verified: 2 before 8", verified(&bad, short, row.job)),
        (32, "verified: 32 before 2", verified(&file, short, 4104)),
    ];
    tests.extend(cases.into_iter().map(|(status, what, case)| test(what, "opening a job", case, status)));
    let other = opening(&file, &ring, row.job, len).changed("ring", Value::Text(text_of(&[0x11; 256])));
    tests.push(test("8: another ring", "opening a job", other, 8));
    tests
}

pub fn jobs() -> Vec<Test> {
    let mut tests = vec![];
    for edition in EDITIONS {
        tests.extend(lookups(edition));
        tests.extend(openings(edition));
    }
    tests.extend(searches());
    tests.extend(opening_order());
    tests
}
