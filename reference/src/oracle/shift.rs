//! The plant's shift file, editions 1 and 2: check, lookup, associated data, and opening one job.

use super::comet;
use std::ops::Range;

pub const HEADER: usize = 8;
pub const MOST_ROWS: usize = 512;
pub const LONGEST: usize = 1_048_576;
pub const RING: usize = 256;

/// A status of document 01 and the row that it is about.
pub type Answer = (u32, u32);

pub(crate) fn u16_at(file: &[u8], at: usize) -> usize {
    u16::from_le_bytes([file[at], file[at + 1]]) as usize
}

fn u32_at(file: &[u8], at: usize) -> u32 {
    u32::from_le_bytes([file[at], file[at + 1], file[at + 2], file[at + 3]])
}

/// The number of bytes of a row: in edition 2 a station number of 4 bytes follows the job number (document 02, W10).
pub fn row_size(edition: usize) -> usize {
    if edition == 2 {
        36
    } else {
        32
    }
}

/// The offset of row i.
pub fn row_at(edition: usize, i: usize) -> usize {
    HEADER + row_size(edition) * i
}

/// The offset of row i's fields after job number and station: suite, key number, lengths, offset, nonce.
pub fn fields_at(edition: usize, i: usize) -> usize {
    row_at(edition, i + 1) - 28
}

/// The editions of sealed files; a draft has edition 0.
pub const EDITIONS: [usize; 2] = [1, 2];

pub fn edition(file: &[u8]) -> usize {
    u16_at(file, 0)
}

/// A row of the table of contents. In edition 1 the station is 0.
#[derive(Clone, Copy)]
pub struct Row {
    pub job: u32,
    pub station: u32,
    pub suite: u8,
    pub key: u8,
    pub ad: usize,
    pub offset: usize,
    pub message: usize,
    pub nonce: [u8; 16],
}

fn row(file: &[u8], i: usize) -> Row {
    let (at, fields) = (row_at(edition(file), i), fields_at(edition(file), i));
    Row {
        job: u32_at(file, at),
        station: if fields == at + 8 { u32_at(file, at + 4) } else { 0 },
        suite: file[fields],
        key: file[fields + 1],
        ad: u16_at(file, fields + 2),
        offset: u32_at(file, fields + 4) as usize,
        message: u32_at(file, fields + 8) as usize,
        nonce: file[fields + 12..fields + 28].try_into().unwrap(),
    }
}

impl Row {
    /// The offset of the end of the body, which is associated data, ciphertext and tag.
    fn end(&self) -> usize {
        self.offset + self.ad + self.message + comet::block_size(self.suite)
    }

    pub fn body(&self) -> Range<usize> {
        self.offset..self.end()
    }

    pub fn associated(&self) -> Range<usize> {
        self.offset..self.offset + self.ad
    }

    pub fn text(&self) -> Range<usize> {
        self.offset + self.ad..self.offset + self.ad + self.message
    }

    pub fn tag(&self) -> Range<usize> {
        self.text().end..self.end()
    }

    /// The nonce bytes that the suite reads.
    pub fn nonce(&self) -> &[u8] {
        &self.nonce[..comet::nonce_size(self.suite)]
    }

    /// Two rows clash if suite, key number and the nonce bytes that the suite reads are all equal.
    pub fn clashes(&self, other: &Row) -> bool {
        (self.suite, self.key, self.nonce()) == (other.suite, other.key, other.nonce())
    }

    /// The row's key in a ring.
    pub fn key<'a>(&self, ring: &'a [u8]) -> &'a [u8] {
        &ring[16 * self.key as usize..][..16]
    }

    /// Opens the entry in a file that passes the check: 0, 6 or 8.
    pub fn open(&self, file: &[u8], ring: &[u8], out: &mut [u8]) -> u32 {
        let [ad, text, tag] = [self.associated(), self.text(), self.tag()].map(|range| &file[range]);
        comet::open(self.suite, self.key(ring), self.nonce(), ad, text, tag, out)
    }
}

pub fn count(file: &[u8]) -> usize {
    u16_at(file, 2)
}

/// The rows of a file that contains its whole table of contents.
pub fn rows(file: &[u8]) -> Vec<Row> {
    (0..count(file)).map(|i| row(file, i)).collect()
}

/// The first of statuses 20 to 24 that applies to a file of these editions, or 0.
pub fn check_header(file: &[u8], editions: &[usize]) -> u32 {
    if file.len() < HEADER || file.len() > LONGEST {
        20
    } else if !editions.contains(&edition(file)) {
        21
    } else if count(file) > MOST_ROWS {
        22
    } else if u32_at(file, 4) as usize != file.len() {
        23
    } else if row_at(edition(file), count(file)) > file.len() {
        24
    } else {
        0
    }
}

/// The first of statuses 25 to 28, 34, 29 and 30 that applies to row i, or 0. The rows before it must have passed.
fn check_row(file: &[u8], i: usize) -> u32 {
    let this = row(file, i);
    let start = if i == 0 { row_at(edition(file), count(file)) } else { row(file, i - 1).end() };
    if i > 0 && this.job <= row(file, i - 1).job {
        25
    } else if !comet::SUITES.contains(&this.suite) || this.key > 15 {
        26
    } else if !(5..=1024).contains(&this.ad) || this.message > comet::LIMIT {
        27
    } else if this.offset != start || this.end() > file.len() {
        28
    } else if this.nonce[this.nonce().len()..].iter().any(|byte| *byte != 0) {
        34
    } else if (0..i).any(|earlier| row(file, earlier).clashes(&this)) {
        29
    } else if u32_at(file, this.offset) != this.job || ![1, 2].contains(&file[this.offset + 4]) {
        30
    } else {
        0
    }
}

/// The full check of a file of edition 1 or 2.
pub fn check(file: &[u8]) -> Answer {
    check_as(file, &EDITIONS)
}

/// The full check of a file of one of these editions.
pub fn check_as(file: &[u8], editions: &[usize]) -> Answer {
    let status = check_header(file, editions);
    if status != 0 {
        return (status, 0);
    }
    let n = count(file);
    for i in 0..n {
        let status = check_row(file, i);
        if status != 0 {
            return (status, i as u32);
        }
    }
    let end = if n == 0 { HEADER } else { row(file, n - 1).end() };
    (if end == file.len() { 0 } else { 31 }, 0)
}

/// The full check, then the row of the job, or 32.
pub fn lookup(file: &[u8], job: u32) -> Answer {
    let (status, at) = check(file);
    if status != 0 {
        return (status, at);
    }
    match rows(file).iter().position(|row| row.job == job) {
        Some(i) => (0, i as u32),
        None => (32, 0),
    }
}

/// The associated data of the job, as a slice of the file; an empty slice if the lookup refuses.
pub fn associated(file: &[u8], job: u32) -> &[u8] {
    let (at, length) = associated_place(file, job);
    &file[at..at + length]
}

/// Offset and length of the job's associated data in the file, both 0 if the lookup refuses.
pub fn associated_place(file: &[u8], job: u32) -> (usize, usize) {
    match lookup(file, job) {
        (0, i) => {
            let found = row(file, i as usize);
            (found.offset, found.ad)
        }
        _ => (0, 0),
    }
}

/// The extent of an entry: offset and length of its associated data, offset and length of its text.
pub type Places = [usize; 4];

/// The result of the lookup, and the extent of the job's entry in the file; four zeros if the lookup refuses.
pub fn entry(file: &[u8], job: u32) -> (Answer, Places) {
    let answer = lookup(file, job);
    if answer.0 != 0 {
        return (answer, [0; 4]);
    }
    let found = row(file, answer.1 as usize);
    (answer, [found.offset, found.ad, found.offset + found.ad, found.message])
}

/// Opens one job and writes its message to `out`. Refusals: the full check, 32, 2 (the ring's length), 6, 8. On 8 every
/// byte of `out` is 0, on another refusal it is unchanged.
pub fn open_job(file: &[u8], ring: &[u8], job: u32, out: &mut [u8]) -> Answer {
    let (status, i) = lookup(file, job);
    if status != 0 {
        return (status, i);
    }
    if ring.len() != RING {
        return (2, 0);
    }
    (row(file, i as usize).open(file, ring, out), 0)
}

/// Verifies one job: status and row, offset and length of its associated data. Refusals: the full check, 32, 2, 8 if the
/// tag is wrong under the ring. Offset and length are 0 on a refusal.
pub fn verified(file: &[u8], ring: &[u8], job: u32) -> (Answer, usize, usize) {
    let (answer, [at, length, _, message]) = entry(file, job);
    if answer.0 != 0 {
        return (answer, 0, 0);
    }
    match open_job(file, ring, job, &mut vec![0; message]) {
        (0, _) => ((0, 0), at, length),
        refused => (refused, 0, 0),
    }
}
