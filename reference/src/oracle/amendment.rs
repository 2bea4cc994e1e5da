//! Amendments: a small file that replaces some jobs of the day's file (document 02, W11).

use super::shift::{associated_place, check, lookup, open_job};

/// The status (`number`), the file (1 the amendment, 2 the day's) and the row that it is about, and the offset and length
/// of the current associated data in that file, both 0 on a refusal.
#[derive(Clone, Copy, PartialEq, Debug)]
pub struct Amended {
    pub number: u32,
    pub file: u32,
    pub row: u32,
    pub at: usize,
    pub length: usize,
}

fn refused(status: u32, file: u32, row: u32) -> Amended {
    Amended { number: status, file, row, at: 0, length: 0 }
}

/// Checks the amendment, then the day's file, and finds the current entry of a job: the amendment's if it has the job,
/// else the day's; 32 if neither has it.
pub fn amended(amendment: &[u8], day: &[u8], job: u32) -> Amended {
    let files = [(1, amendment), (2, day)];
    for (file, bytes) in files {
        let (status, row) = check(bytes);
        if status != 0 {
            return refused(status, file, row);
        }
    }
    for (file, bytes) in files {
        if let (0, row) = lookup(bytes, job) {
            let (at, length) = associated_place(bytes, job);
            return Amended { number: 0, file, row, at, length };
        }
    }
    refused(32, 0, 0)
}

/// The current associated data, as a slice of the file that contains it; an empty slice of the amendment on a refusal.
pub fn current<'a>(amendment: &'a [u8], day: &'a [u8], job: u32) -> &'a [u8] {
    let Amended { file, at, length, .. } = amended(amendment, day, job);
    let source = if file == 2 && length > 0 { day } else { amendment };
    &source[at..at + length]
}

/// Opens the current entry of a job and returns status, file and row. After the refusals of `amended` come 2, 6 and 8, as
/// `open_job` returns them for the file that contains the entry.
pub fn open_current(amendment: &[u8], day: &[u8], ring: &[u8], job: u32, out: &mut [u8]) -> (u32, u32, u32) {
    let Amended { number: status, file, row, .. } = amended(amendment, day, job);
    if status != 0 {
        return (status, file, row);
    }
    let (status, row) = open_job(if file == 1 { amendment } else { day }, ring, job, out);
    (status, file, row)
}
