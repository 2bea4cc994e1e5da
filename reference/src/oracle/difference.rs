//! The comparison of two shift files (document 02, W8).

use super::shift::{check, rows, Row};
use std::collections::BTreeMap;

/// The status (`number`), the file and the row that it is about, and how many jobs were written to each list.
#[derive(Clone, Copy, PartialEq, Debug)]
pub struct Compared {
    pub number: u32,
    pub file: u32,
    pub row: u32,
    pub counts: [u32; 3],
}

fn refused(status: u32, file: u32, row: u32) -> Compared {
    Compared { number: status, file, row, counts: [0; 3] }
}

/// Whether two entries of one job differ in station (document 02, W10), suite, key number, associated data length, nonce
/// or body. Offsets are not compared.
fn differ((first, one): (&[u8], &Row), (second, other): (&[u8], &Row)) -> bool {
    let facts = |row: &Row| (row.station, row.suite, row.key, row.ad, row.nonce);
    facts(one) != facts(other) || first[one.body()] != second[other.body()]
}

/// The jobs only in the first file, those only in the second, and those in both but different.
fn lists(first: &[u8], second: &[u8]) -> [Vec<u32>; 3] {
    let by_job = |file: &[u8]| rows(file).into_iter().map(|row| (row.job, row)).collect::<BTreeMap<u32, Row>>();
    let (ones, others) = (by_job(first), by_job(second));
    let only = |these: &BTreeMap<u32, Row>, those: &BTreeMap<u32, Row>| {
        these.keys().copied().filter(|job| !those.contains_key(job)).collect()
    };
    let both = ones.iter().filter_map(|(job, one)| Some((*job, one, others.get(job)?)));
    let differing = both.filter(|(_, one, other)| differ((first, one), (second, other)));
    [only(&ones, &others), only(&others, &ones), differing.map(|(job, _, _)| job).collect()]
}

/// Compares two files and writes the three lists of jobs to `out`, in ascending order. Refusals: the check of the first
/// file, that of the second, 36 if a list does not fit. Elements after a list's end, and all on a refusal, are unchanged.
pub fn compare(first: &[u8], second: &[u8], out: [&mut [u32]; 3]) -> Compared {
    for (file, bytes) in [(1, first), (2, second)] {
        let (status, row) = check(bytes);
        if status != 0 {
            return refused(status, file, row);
        }
    }
    let lists = lists(first, second);
    if lists.iter().zip(&out).any(|(list, to)| list.len() > to.len()) {
        return refused(36, 0, 0);
    }
    for (list, to) in lists.iter().zip(out) {
        to[..list.len()].copy_from_slice(list);
    }
    Compared { counts: lists.map(|list| list.len() as u32), ..refused(0, 0, 0) }
}

/// The greatest length of a file that `differ` and `inspect` accept.
pub const PROGRAM_LONGEST: usize = 65_280;

/// What `differ` prints.
pub fn printed(first: &[u8], second: &[u8]) -> String {
    let mut lists = [[0; 512]; 3];
    let [one, other, both] = &mut lists;
    let answer = if first.len() > PROGRAM_LONGEST {
        refused(20, 1, 0)
    } else if check(first).0 == 0 && second.len() > PROGRAM_LONGEST {
        refused(20, 2, 0)
    } else {
        compare(first, second, [one, other, both])
    };
    if answer.number != 0 {
        return format!("refused {} {} {}\n", answer.file, answer.number, answer.row);
    }
    let mut lines = String::new();
    for (i, name) in ["first", "second", "differ"].iter().enumerate() {
        lines += &format!("{name}\n");
        for job in &lists[i][..answer.counts[i] as usize] {
            lines += &format!("{job}\n");
        }
    }
    lines
}
