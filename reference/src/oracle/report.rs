//! Suppliers' files (document 02, W14): a reader that returns one entry after another, and a report on a file and a ring.

use super::difference::PROGRAM_LONGEST;
use super::shift::{check, rows, Row, RING};

/// An iterator over the rows of a file.
pub struct Reader<'a> {
    file: &'a [u8],
    next: usize,
}

impl<'a> Reader<'a> {
    pub fn new(file: &'a [u8]) -> Self {
        Reader { file, next: 0 }
    }

    /// The next row and its index in the table; after the last row None, at every further call. On a file that does not pass
    /// the check it is None from the first call on.
    pub fn entry(&mut self) -> Option<(usize, Row)> {
        if check(self.file).0 != 0 {
            return None;
        }
        let i = self.next;
        let row = *rows(self.file).get(i)?;
        self.next += 1;
        Some((i, row))
    }
}

/// The status (`number`) and its row, and how many entries were reported.
#[derive(Clone, Copy, PartialEq, Debug)]
pub struct Report {
    pub number: u32,
    pub row: u32,
    pub count: u32,
}

/// Writes for each entry of a file its job to `jobs`, and to `numbers` 0 if its tag is right under the ring, else 8.
/// Refusals: 20 with row 0 if the file has more than 65,280 bytes, the check, 2, 6 if a list is shorter than the table.
/// Elements after the count, and all on a refusal, are unchanged.
pub fn report(file: &[u8], ring: &[u8], jobs: &mut [u32], numbers: &mut [u8]) -> Report {
    let refused = |status: u32, row: u32| Report { number: status, row, count: 0 };
    if file.len() > PROGRAM_LONGEST {
        return refused(20, 0);
    }
    let (status, row) = check(file);
    if status != 0 {
        return refused(status, row);
    }
    if ring.len() != RING {
        return refused(2, 0);
    }
    let rows = rows(file);
    if jobs.len().min(numbers.len()) < rows.len() {
        return refused(6, 0);
    }
    for (i, row) in rows.iter().enumerate() {
        jobs[i] = row.job;
        numbers[i] = row.open(file, ring, &mut vec![0; row.message]) as u8;
    }
    Report { number: 0, row: 0, count: rows.len() as u32 }
}

/// What `inspect` prints.
pub fn printed(file: &[u8], ring: &[u8]) -> String {
    let (mut jobs, mut numbers) = ([0; 512], [0; 512]);
    let Report { number: status, row, count } = report(file, ring, &mut jobs, &mut numbers);
    if status != 0 {
        return format!("refused {status} {row}\n");
    }
    let entries = jobs.iter().zip(&numbers).take(count as usize);
    format!("entries {count}\n") + &entries.map(|(job, status)| format!("{job} {status}\n")).collect::<String>()
}
