//! Refusals in words: the library's, the file, the job beside the row, and what to do next.

use crate::ended::Failure;
use crate::input::Input;
use crate::shown;
use snoekeldraf::{unverified_job, Reason, Refused, Ring, ShiftFile};
use std::path::Path;

/// What a command takes: the words for status 21.
#[derive(Clone, Copy, PartialEq, Eq, Debug)]
pub enum Takes {
    Draft,
    Edition1,
    ToMoveTo2,
    ToMoveTo1,
    Either,
}

impl Takes {
    fn words(self) -> &'static str {
        match self {
            Takes::Draft => "edition 0, a draft",
            Takes::Edition1 => "edition 1 (`snoekeldraf convert --to 1` moves a file of edition 2)",
            Takes::ToMoveTo2 => "edition 1 with --to 2",
            Takes::ToMoveTo1 => "edition 2 with --to 1",
            Takes::Either => "edition 1 or 2 (of a draft, edition 0, `snoekeldraf seal` makes a shift file)",
        }
    }
}

/// A refused ring.
pub fn of_ring(path: &Path, length: usize, refused: Refused) -> Failure {
    let has = match length {
        257.. => "it has more than 256 bytes".to_owned(),
        _ => format!("it has {}", shown::count(length, "byte", "bytes")),
    };
    Failure::refused(format!("{}: {refused}; {has}", shown::name(path)))
}

/// A refused file.
pub fn of_file(input: &Input, takes: Takes, refused: Refused) -> Failure {
    let mut words = format!("{}: {}", input.name(), in_words(input, takes, &refused));
    if let Some(next) = what_next(input, takes, &refused) {
        words = format!("{words}\n{next}");
    }
    Failure::refused(words)
}

/// A refused file of which a ring opens something: a ring that fits no entry is probably the wrong one.
pub fn with_ring(input: &Input, ring: &Ring, takes: Takes, refused: Refused) -> Failure {
    let mut failure = of_file(input, takes, refused);
    if refused.reason == Reason::TagDiffers && fits_nothing(&input.bytes, ring) {
        failure.words += "\n";
        failure.words += RIGHT_RING;
    }
    failure
}

/// What to ask where no tag of a file is right.
pub const RIGHT_RING: &str = "No tag of this file is right: is it the right ring?";

/// What a wrong tag means.
pub const DO_NOT_USE: &str = "Do not use this entry: it is not what was sealed with this ring.";

/// The status in the library's words, with number, row and job.
fn in_words(input: &Input, takes: Takes, refused: &Refused) -> String {
    let place = match refused.row.map(|row| (row, job_of(input, takes, row))) {
        Some((row, Some(job))) => format!(", row {row}, job {job}"),
        Some((row, None)) => format!(", row {row}"),
        None => String::new(),
    };
    format!("{} (status {}{place})", refused.words(), refused.number())
}

/// The job number in a row, from the library, of a refused file too. A draft's rows are those of edition 1.
fn job_of(input: &Input, takes: Takes, row: u32) -> Option<u32> {
    let mut bytes = input.bytes.clone();
    if let (Takes::Draft, Some(edition)) = (takes, bytes.first_mut()) {
        *edition = 1;
    }
    unverified_job(&bytes, row).ok()
}

fn what_next(input: &Input, takes: Takes, refused: &Refused) -> Option<String> {
    Some(match refused.reason {
        Reason::TagDiffers => DO_NOT_USE.to_owned(),
        Reason::SuiteRetired => "Use suite 3 or 6 in the draft. \
             `snoekeldraf reseal` seals the suite 4 entries of a shift file again as suite 3."
            .to_owned(),
        Reason::FileLength => format!("{} has {}.", input.name(), input.length()),
        Reason::FileEdition => format!("This command takes {}.", takes.words()),
        Reason::FileTotal => "Copy or send the file again: it was cut off, or something was added.".to_owned(),
        // Resealing also refuses a file that passes the check.
        Reason::RowNonce if ShiftFile::check(&input.bytes).is_ok() => {
            "Resealed as suite 3, this entry and another would have one key and nonce. Nothing is written.".to_owned()
        }
        Reason::RowNonce => "Do not use this file: entries with one key and nonce may be readable by others. \
             Tell whoever made it."
            .to_owned(),
        Reason::RowTagSet => "This is no draft. `snoekeldraf unseal` makes one of a shift file.".to_owned(),
        Reason::RowStation => "Edition 1 has no stations: keep the file in edition 2.".to_owned(),
        Reason::NoRow => format!("`snoekeldraf list {}` shows the jobs that there are.", input.name()),
        _ => return None,
    })
}

/// Whether a file has entries, and no tag is right.
fn fits_nothing(bytes: &[u8], ring: &Ring) -> bool {
    ShiftFile::check(bytes).is_ok_and(|file| {
        let mut entries = file.entries();
        entries.len() > 0 && entries.all(|entry| entry.verify(ring).is_err())
    })
}
