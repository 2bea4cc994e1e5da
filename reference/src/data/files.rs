//! Cases for `test_shift`: calls of the functions that read a shift file.

use super::{parts_of, samples, Part};
use crate::calls::{Case, FileCall, REFERENCE};
use crate::comet::{block_size, fitting_tag, nonce_size, LIMIT, SUITES};
use crate::plan::{row_at, Entry, Plan};
use crate::random::Random;
use crate::shift::{self, fields_at, EDITIONS};

fn call(file: Vec<u8>, job: u32, out: usize) -> FileCall {
    FileCall { file, ring: samples::ring(), job, out }
}

/// The call on a file, after a check that the full check returns the expected status and row. The call has no ring and an
/// output of a wrong length, so that an implementation that checks those first returns another status.
fn expected(file: Vec<u8>, status: u32, row: usize) -> FileCall {
    let call = FileCall { file, ring: vec![], job: 20, out: 2 };
    assert_eq!(call.answer(&REFERENCE).check, (status, row as u32));
    call
}

/// Document 01's smallest file with a row: job 7, suite 3, key 0, unit 1, no message, zero nonce.
pub fn smallest() -> Vec<u8> {
    smallest_plan().file(&samples::ring())
}

pub fn smallest_plan() -> Plan {
    Plan::new(vec![Entry::new(7, 3, 0, 1, [0; 16], b"")])
}

/// A small good file of three rows under suites 3, 1 and 4: jobs 10, 20 and 30; two of them have a station.
pub fn three_rows() -> Plan {
    let mut random = Random::new(6);
    let mut plan = Plan::new(vec![
        Entry::new(10, 3, 1, 1, random.array(), b"ten"),
        Entry::new(20, 1, 2, 2, random.array(), b"20 "),
        Entry::new(30, 4, 15, 1, random.array(), b"thirty jobs"),
    ]);
    (plan.entries[1].station, plan.entries[2].station) = (300, 0xff00_0000);
    plan
}

/// The files of document 01 and three rows, in both editions, and files of 0 to 8 bytes.
fn worked(_: &mut Random) -> Vec<FileCall> {
    let empty = Plan::new(vec![]).file(&[]);
    assert_eq!(empty, [1, 0, 0, 0, 8, 0, 0, 0]);
    let mut calls: Vec<FileCall> = (0..=8).map(|length| call(empty[..length].to_vec(), 7, 0)).collect();
    calls.push(call(vec![2, 0, 0, 0, 8, 0, 0, 0], 7, 0));
    for edition in EDITIONS {
        for job in [7, 0, 6, 8] {
            calls.push(call(smallest_plan().in_edition(edition).file(&samples::ring()), job, 0));
        }
        for (job, out) in [(10, 3), (20, 3), (30, 11), (11, 3)] {
            calls.push(call(three_rows().in_edition(edition).file(&samples::ring()), job, out));
        }
    }
    calls
}

/// A plan of many rows without messages; row i has job 10 i and station i.
pub fn many_rows_plan(rows: usize) -> Plan {
    let entry = |i: usize| {
        let mut nonce = [0; 16];
        nonce[..2].copy_from_slice(&(i as u16).to_le_bytes());
        let station = i as u32;
        Entry { station, ..Entry::new(10 * i as u32, 3 + (i % 2) as u8, (i % 16) as u8, 1, nonce, b"") }
    };
    Plan::new((0..rows).map(entry).collect())
}

pub fn many_rows(rows: usize) -> Vec<u8> {
    many_rows_plan(rows).file(&samples::ring())
}

/// 512 rows pass and 513 do not; each row's nonce is compared with every earlier one.
fn full_tables(_: &mut Random) -> Vec<FileCall> {
    let mut clash = many_rows(40);
    clash.copy_within(row_at(1) + 16..row_at(1) + 32, row_at(33) + 16);
    let [full, over] = [512, 513].map(|rows| many_rows_plan(rows).in_edition(2).file(&samples::ring()));
    vec![
        call(many_rows(512), 5110, 0),
        expected(many_rows(513), 22, 0),
        expected(clash, 29, 33),
        call(full, 5110, 0),
        expected(over, 22, 0),
    ]
}

/// A good file of the greatest length, with job i + 1 in row i and ciphertexts of zeros.
pub fn longest() -> Vec<u8> {
    long_file(1, shift::LONGEST)
}

/// The same in an edition, with station 0 everywhere, and of a length that may be a little smaller.
pub fn long_file(edition: usize, length: usize) -> Vec<u8> {
    let rows = 16;
    let ring = samples::ring();
    let mut table = vec![];
    let mut bodies: Vec<u8> = vec![];
    for i in 0..rows {
        let (job, suite, key) = (i as u32 + 1, SUITES[i % SUITES.len()], i as u8);
        let Entry { ad, nonce, .. } = Entry::new(job, suite, key, 2, [key; 16], b"");
        let offset = shift::row_at(edition, rows) + bodies.len();
        let rest = length - offset - ad.len() - block_size(suite);
        let text = vec![0; if i + 1 < rows { LIMIT } else { rest }];
        table.extend(job.to_le_bytes());
        table.resize(fields_at(edition, i) - shift::HEADER, 0);
        table.extend([suite, key, ad.len() as u8, 0]);
        table.extend((offset as u32).to_le_bytes());
        table.extend((text.len() as u32).to_le_bytes());
        table.extend(nonce);
        let key = &ring[16 * key as usize..][..16];
        let tag = fitting_tag(suite, key, &nonce[..nonce_size(suite)], &ad, &text);
        bodies.extend([ad, text, tag].concat());
    }
    let header = [&[edition as u8, 0, rows as u8, 0][..], &(length as u32).to_le_bytes()].concat();
    [header, table, bodies].concat()
}

/// 1,048,576 bytes pass and 1,048,577 do not.
fn longest_files(_: &mut Random) -> Vec<FileCall> {
    let file = longest();
    let good = call(file.clone(), 15, LIMIT);
    assert_eq!((file.len(), good.answer(&REFERENCE).open), (shift::LONGEST, (0, 0)));
    let mut longer = file;
    longer.push(0);
    longer[4..8].copy_from_slice(&(shift::LONGEST as u32 + 1).to_le_bytes());
    vec![good, expected(longer, 20, 0)]
}

/// The statuses of the check, except 20, in their order.
pub const ORDER: [u32; 12] = [21, 22, 23, 24, 25, 26, 27, 28, 34, 29, 30, 31];

/// The statuses of the check that have a row.
pub const OF_ROWS: [u32; 7] = [25, 26, 27, 28, 34, 29, 30];

/// Gives a plan the fault of one status, in `row` if the status has a row.
pub fn fault(plan: &mut Plan, status: u32, row: usize) {
    let previous = plan.entries[row.max(1) - 1].job;
    let Entry { suite, key, nonce, .. } = plan.entries[0];
    let entry = &mut plan.entries[row];
    match status {
        21 => plan.edition = Some(3),
        22 => plan.count = Some(513),
        23 => plan.longer = 1,
        24 => plan.count = plan.count.or(Some(512)),
        25 => {
            entry.job = previous;
            entry.ad[..4].copy_from_slice(&previous.to_le_bytes());
        }
        26 => entry.key |= 16,
        27 => entry.ad.truncate(4),
        28 => plan.gaps.push(row),
        29 => {
            if entry.suite != suite {
                entry.nonce[15] = 0;
            }
            (entry.suite, entry.key) = (suite, key | entry.key & 16);
            entry.nonce[..15].copy_from_slice(&nonce[..15]);
        }
        30 => entry.ad[3] ^= 1,
        31 => plan.tail = 1,
        34 => (entry.suite, entry.nonce[15]) = (3, 1),
        _ => unreachable!("no fault {status}"),
    }
}

/// Whether the fault of a status is possible in a row: row 0 has no row before it.
fn fits(status: u32, row: usize) -> bool {
    row > 0 || ![25, 29].contains(&status)
}

/// Each status alone in each row, with each later one in the same row, and with each one in a later row.
fn refused(_: &mut Random) -> Vec<FileCall> {
    let ring = samples::ring();
    let mut calls = vec![];
    let mut add = |faults: &[(u32, usize)], status: u32, row: usize| {
        let mut plan = three_rows();
        for (status, row) in faults {
            fault(&mut plan, *status, *row);
        }
        for edition in EDITIONS {
            let file = plan.in_edition(edition).file(&ring);
            calls.push(expected(file, status, if OF_ROWS.contains(&status) { row } else { 0 }));
        }
    };
    for status in [21, 23, 31] {
        add(&[(status, 0)], status, 0);
    }
    for status in OF_ROWS {
        for row in (0..3).filter(|row| fits(status, *row)) {
            add(&[(status, row)], status, row);
        }
    }
    for (index, status) in ORDER.into_iter().enumerate() {
        for later in &ORDER[index + 1..] {
            add(&[(status, 1), (*later, 1)], status, 1);
        }
    }
    for status in OF_ROWS.into_iter().filter(|status| fits(*status, 0)) {
        for other in OF_ROWS {
            add(&[(status, 0), (other, 1)], status, 0);
        }
    }
    calls
}

/// A file with some of its bytes replaced.
fn patched(file: &[u8], at: usize, bytes: &[u8]) -> Vec<u8> {
    let mut file = file.to_vec();
    file[at..at + bytes.len()].copy_from_slice(bytes);
    file
}

/// The variants of the header's statuses that `fault` does not produce, and each edition's file with the other's number.
fn header_kinds(_: &mut Random) -> Vec<FileCall> {
    let mut calls = vec![];
    for edition in EDITIONS {
        let file = three_rows().in_edition(edition).file(&samples::ring());
        calls.push(call(patched(&file, 0, &[3 - edition as u8]), 20, 3));
        calls.extend(headers(file));
    }
    calls
}

fn headers(file: Vec<u8>) -> Vec<FileCall> {
    let length = (file.len() as u32 - 1).to_le_bytes();
    let kinds: [(u32, usize, &[u8]); 8] = [
        (21, 0, &[0]),
        (21, 1, &[1]),
        (21, 0, &[0xff, 0xff]),
        (22, 2, &[0xff, 0xff]),
        (23, 4, &length),
        (23, 4, &[0; 4]),
        (23, 7, &[1]),
        (24, 2, &[100]),
    ];
    kinds.map(|(status, at, bytes)| expected(patched(&file, at, bytes), status, 0)).to_vec()
}

/// The variants of a row's statuses that `fault` does not produce, in row 1 and in its body.
fn row_kinds(_: &mut Random) -> Vec<FileCall> {
    EDITIONS.into_iter().flat_map(row_kinds_in).collect()
}

fn row_kinds_in(edition: usize) -> Vec<FileCall> {
    let file = three_rows().in_edition(edition).file(&samples::ring());
    let (row, at) = (shift::row_at(edition, 1), fields_at(edition, 1));
    let body = u32::from_le_bytes(file[at + 4..at + 8].try_into().unwrap());
    let numbers = |status: u32, offset: usize, values: &[u32]| -> Vec<FileCall> {
        let width = if offset == at + 2 { 2 } else { 4 };
        let patch = |value: &u32| expected(patched(&file, offset, &value.to_le_bytes()[..width]), status, 1);
        values.iter().map(patch).collect()
    };
    let bytes = |status: u32, at: usize, values: &[u8]| -> Vec<FileCall> {
        values.iter().map(|value| expected(patched(&file, at, &[*value]), status, 1)).collect()
    };
    [
        numbers(25, row, &[0, 9]),
        bytes(26, at, &[0, 7, 255]),
        bytes(26, at + 1, &[255]),
        numbers(27, at + 2, &[0, 4, 1025, 0xffff]),
        numbers(27, at + 8, &[LIMIT as u32 + 1, u32::MAX]),
        numbers(28, at + 2, &[1024]),
        numbers(28, at + 4, &[0, body - 1, body + 1, u32::MAX]),
        numbers(28, at + 8, &[LIMIT as u32]),
        numbers(30, row, &[21, 20 + (1 << 31)]),
        (0..4).flat_map(|offset| bytes(30, body as usize + offset, &[21])).collect(),
        bytes(30, body as usize + 4, &[0, 3, 255]),
    ]
    .concat()
}

/// Associated data that is too long, a truncated last body, a truncated table, and bytes after the end.
fn ends(_: &mut Random) -> Vec<FileCall> {
    let mut long = three_rows();
    long.entries[1].ad.resize(1025, 0);
    let mut calls = vec![expected(long.file(&samples::ring()), 27, 1)];
    let cut = |file: &[u8], length: usize| patched(&file[..length], 4, &[length as u8]);
    let file = three_rows().file(&samples::ring());
    for length in [file.len() - 1, file.len() - 20] {
        calls.push(expected(file[..length].to_vec(), 23, 0));
        calls.push(expected(cut(&file, length), 28, 2));
    }
    for length in [8, 9, 39] {
        calls.push(expected(cut(&smallest(), length), 24, 0));
    }
    calls.push(expected(cut(&smallest(), 40), 28, 0));
    let wide = smallest_plan().in_edition(2).file(&samples::ring());
    for length in [8, 40, 43] {
        calls.push(expected(cut(&wide, length), 24, 0));
    }
    calls.push(expected(cut(&wide, 44), 28, 0));
    calls.push(expected(vec![2, 0, 0, 0, 9, 0, 0, 0, 0], 31, 0));
    calls.push(expected(vec![1, 0, 0, 0, 9, 0, 0, 0, 0], 31, 0));
    calls.push(expected(vec![1, 0, 0, 0, 8, 0, 0, 0, 0], 23, 0));
    calls
}

/// Files that just pass: job numbers 0, 2^32 - 1 and one above 2^31, associated data of 1,024 bytes, one nonce under
/// different suites.
fn just_good(_: &mut Random) -> Vec<FileCall> {
    let mut entries = vec![];
    for (job, suite) in [(0, 3), (1, 1), (3, 5), (0x7fff_ffff, 6), (0x8000_0000, 4), (0xffff_ffff, 2)] {
        entries.push(Entry::new(job, suite, 15, 2, [9; 16], b"edge"));
    }
    entries[5].ad.resize(1024, 0);
    entries[3].station = u32::MAX;
    let files = EDITIONS.map(|edition| Plan::new(entries.clone()).in_edition(edition).file(&samples::ring()));
    let jobs = [0, 1, 2, 3, 0x7fff_ffff, 0x8000_0000, 0xffff_ffff];
    files.iter().flat_map(|file| jobs.map(|job| call(file.clone(), job, 4))).collect()
}

/// Two rows, each as suite, key number and sixteenth nonce byte, and the status and row of the check. The other fifteen
/// nonce bytes are equal.
type RowPair = ([(u8, u8, u8); 2], u32, usize);

/// The pairs of document 02, W5. The first is the auditor's file.
const PAIRS: [RowPair; 21] = [
    ([(3, 0, 0), (3, 0, 1)], 34, 1),
    ([(3, 0, 1), (3, 0, 0)], 34, 0),
    ([(3, 0, 1), (3, 0, 2)], 34, 0),
    ([(4, 0, 0), (4, 0, 0x80)], 34, 1),
    ([(3, 0, 0), (3, 0, 0)], 29, 1),
    ([(4, 0, 0), (4, 0, 0)], 29, 1),
    ([(3, 0, 0), (3, 1, 0)], 0, 0),
    ([(3, 0, 0), (4, 0, 0)], 0, 0),
    ([(1, 0, 0), (1, 0, 1)], 0, 0),
    ([(1, 0, 7), (1, 0, 7)], 29, 1),
    ([(2, 5, 7), (2, 5, 7)], 29, 1),
    ([(1, 0, 7), (1, 15, 7)], 0, 0),
    ([(1, 0, 7), (2, 0, 7)], 0, 0),
    ([(1, 0, 0), (3, 0, 0)], 0, 0),
    ([(6, 0, 0), (6, 0, 1)], 34, 1),
    ([(6, 3, 0), (6, 3, 0)], 29, 1),
    ([(3, 0, 0), (6, 0, 0)], 0, 0),
    ([(5, 0, 0), (5, 0, 1)], 0, 0),
    ([(5, 0, 7), (5, 0, 7)], 29, 1),
    ([(1, 0, 7), (5, 0, 7)], 0, 0),
    ([(5, 1, 0), (6, 1, 0)], 0, 0),
];

/// The nonce rule on pairs of rows, and with a row between them.
fn nonces(_: &mut Random) -> Vec<FileCall> {
    let mut calls = vec![];
    for (rows, status, row) in PAIRS {
        let entry = |job: u32, (suite, key, last): (u8, u8, u8)| {
            let mut entry = Entry::new(job, suite, key, 1, [9; 16], b"nonce");
            entry.nonce[15] = last;
            entry
        };
        let (one, two) = (entry(10, rows[0]), entry(20, rows[1]));
        let between = Entry::new(15, 3, 0, 1, [8; 16], b"between");
        let apart = [one.clone(), between, two.clone()];
        let wide = Plan::new(vec![one.clone(), two.clone()]).in_edition(2);
        calls.push(expected(wide.file(&samples::ring()), status, row));
        calls.push(expected(Plan::new(vec![one, two]).file(&samples::ring()), status, row));
        calls.push(expected(Plan::new(apart.to_vec()).file(&samples::ring()), status, 2 * row));
        calls.push(call(calls[calls.len() - 2].file.clone(), 20, 5));
    }
    calls
}

/// Opening: 32, 2, 6 and 8 in all pairs, of which the earlier applies; and a change of each field that the tag covers.
fn openings(_: &mut Random) -> Vec<FileCall> {
    EDITIONS.into_iter().flat_map(openings_in).collect()
}

fn openings_in(edition: usize) -> Vec<FileCall> {
    let good = call(three_rows().in_edition(edition).file(&samples::ring()), 20, 3);
    let body = shift::row_at(edition, 3) + 5 + 3 + 8;
    let nonce = fields_at(edition, 1) + 12;
    let mut calls = vec![];
    for faults in 0..16 {
        let mut call = good.clone();
        call.job = if faults & 1 != 0 { 21 } else { 20 };
        call.ring.truncate(if faults & 2 != 0 { 255 } else { 256 });
        call.out = if faults & 4 != 0 { 4 } else { 3 };
        call.file[body + 8] ^= if faults & 8 != 0 { 1 } else { 0 };
        calls.push(call);
    }
    for length in [0, 1, 16, 257, 300] {
        let mut call = good.clone();
        call.ring.resize(length, 0);
        calls.push(call);
    }
    for length in [0, 2, 65_540] {
        calls.push(FileCall { out: length, ..good.clone() });
    }
    for offset in [nonce, nonce + 15, body + 4, body + 5, body + 7, body + 23] {
        let mut call = good.clone();
        call.file[offset] ^= 3;
        calls.push(call);
    }
    let mut other_key = good.clone();
    other_key.ring[16 * 2 + 15] ^= 1;
    calls.push(other_key);
    if edition == 2 {
        // no tag covers the station
        let mut elsewhere = good;
        elsewhere.file[shift::row_at(2, 1) + 4] ^= 1;
        assert_eq!(elsewhere.answer(&REFERENCE).open, (0, 0));
        calls.push(elsewhere);
    }
    calls
}

/// A good file of random entries, some of which have a station.
pub fn random_plan(random: &mut Random, rows: usize, longest: usize) -> Plan {
    let mut job = random.below(100) as u32;
    let mut entries = vec![];
    for _ in 0..rows {
        let message_length = random.below(longest + 1);
        let message = random.bytes(message_length);
        let suite = SUITES[random.below(SUITES.len())];
        let (key, unit) = (random.below(16) as u8, 1 + random.below(2) as u8);
        let mut entry = Entry::new(job, suite, key, unit, random.array(), &message);
        let more = random.below(40);
        entry.ad.extend(random.bytes(more));
        entry.station = [0, random.below(300) as u32][random.below(2)];
        entries.push(entry);
        job += 1 + random.below(1000) as u32;
    }
    Plan::new(entries)
}

/// Files of several rows, each job opened.
fn good_files(random: &mut Random) -> Vec<FileCall> {
    let mut calls = vec![];
    for (edition, rows) in EDITIONS.into_iter().flat_map(|edition| (1..=8).map(move |rows| (edition, rows))) {
        let plan = random_plan(random, rows, 150).in_edition(edition);
        let file = plan.file(&samples::ring());
        for entry in &plan.entries {
            let call = call(file.clone(), entry.job, entry.message.len());
            assert_eq!(call.answer(&REFERENCE).out, entry.message);
            calls.push(call);
        }
    }
    calls
}

/// All calls of the test data with op 0.
pub fn calls() -> Vec<FileCall> {
    let mut random = Random::new(3);
    #[rustfmt::skip]
    let groups = [
        worked, full_tables, longest_files, refused, header_kinds, row_kinds, ends, just_good, nonces, openings, good_files,
    ];
    groups.into_iter().flat_map(|group| group(&mut random)).collect()
}

/// The calls whose files are changed in every single byte (op 1).
pub fn damaged_calls() -> [FileCall; 3] {
    let wide = smallest_plan().in_edition(2).file(&samples::ring());
    [call(smallest(), 7, 0), call(three_rows().file(&samples::ring()), 20, 3), call(wide, 7, 0)]
}

/// The input and the output of `test_shift` for these calls.
pub fn parts() -> [Part; 2] {
    let (mut calls, damaged) = (calls(), damaged_calls());
    // only the comparison runs longer files
    calls.retain(|call| call.file.len() <= 524_288);
    let [mut stdin, mut stdout] = parts_of(&calls);
    for call in damaged {
        stdin.1.extend(call.record_as(1));
        stdout.1.extend(call.damage_lines().into_bytes());
    }
    [stdin, stdout]
}
