//! How a run ends.

use std::io;

/// The exit statuses, in order of weight: of several files the gravest one counts.
#[derive(Clone, Copy, PartialEq, Eq, PartialOrd, Ord, Debug)]
pub enum Status {
    /// Success.
    Done,
    /// A file, ring or table was refused, a tag differs, or two files differ.
    Refused,
    /// The command line is wrong.
    Usage,
    /// A file could not be read or written.
    Broken,
}

impl Status {
    /// The exit status, 0 to 3.
    pub fn number(self) -> u8 {
        self as u8
    }
}

/// Why a run, or the work on one file, stopped. Each line of the words is printed on the standard error.
#[derive(Debug)]
pub struct Failure {
    /// The exit status.
    pub status: Status,
    /// What to print.
    pub words: String,
}

impl Failure {
    /// A refused input.
    pub fn refused(words: impl Into<String>) -> Failure {
        Failure { status: Status::Refused, words: words.into() }
    }

    /// A wrong command line.
    pub fn usage(words: impl Into<String>) -> Failure {
        Failure { status: Status::Usage, words: words.into() }
    }

    /// Something that the system refused.
    pub fn broken(words: impl Into<String>) -> Failure {
        Failure { status: Status::Broken, words: words.into() }
    }
}

/// The system's reason, without its number.
pub fn reason(error: &io::Error) -> String {
    let words = error.to_string();
    match words.split_once(" (os error") {
        Some((reason, _)) => reason.to_owned(),
        None => words,
    }
}
