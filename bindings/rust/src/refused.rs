//! Errors.

use crate::raw;
use core::error::Error;
use core::fmt::{Display, Formatter, Result as Written};

/// Why a call was refused: every status of the library, named as in the C header.
///
/// ```
/// use snoekeldraf::{Reason, ShiftFile};
///
/// match ShiftFile::check(b"short").map_err(|refused| refused.reason) {
///     Ok(_) => println!("a shift file"),
///     Err(Reason::FileLength) => println!("too short or too long"),
///     Err(other) => println!("{other}"),
/// }
/// ```
#[derive(Clone, Copy, PartialEq, Eq, PartialOrd, Ord, Hash, Debug)]
#[non_exhaustive]
#[repr(u32)]
pub enum Reason {
    /// 1: the suite is not 1 to 6.
    Suite = 1,
    /// 2: a key is not 16 bytes long, or a ring not 256.
    KeyLength = 2,
    /// 3: the nonce does not have the suite's length.
    NonceLength = 3,
    /// 4: the associated data is over 65,536 bytes long.
    AdLength = 4,
    /// 5: the message or ciphertext is over 65,536 bytes long.
    TextLength = 5,
    /// 6: the output does not have the required length.
    OutputLength = 6,
    /// 7: the tag does not have the suite's length.
    TagLength = 7,
    /// 8: the tag differs.
    TagDiffers = 8,
    /// 9: associated data after the first byte of the message.
    Session = 9,
    /// 10: suite 4 is retired; it is opened and no longer sealed.
    SuiteRetired = 10,
    /// 20: the file is too short or too long.
    FileLength = 20,
    /// 21: the edition is not one that the function takes.
    FileEdition = 21,
    /// 22: more than 512 rows.
    FileRows = 22,
    /// 23: the total length in the header is not the file's length.
    FileTotal = 23,
    /// 24: the table of contents runs past the file's end.
    FileTable = 24,
    /// 25: the row's job number is not above the row before's.
    RowOrder = 25,
    /// 26: the row's suite is not 1 to 6, or its key number is over 15.
    RowSuite = 26,
    /// 27: the row's associated data is not 5 to 1,024 bytes long, or its message is over 65,536.
    RowLengths = 27,
    /// 28: the row's body does not start where the one before ends, or runs past the file's end.
    RowBody = 28,
    /// 29: the row repeats the suite, key number and nonce of an earlier row.
    RowNonce = 29,
    /// 30: the row's associated data has another job number, or no unit.
    RowJobOrUnit = 30,
    /// 31: the last body does not end where the file ends.
    FileEnd = 31,
    /// 32: no row has the job.
    NoRow = 32,
    /// 33: the row's tag in a draft is not all zero.
    RowTagSet = 33,
    /// 34: the 16th byte of the row's 15-byte nonce is not 0.
    RowNonceByte = 34,
    /// 35: the row's station is not 0.
    RowStation = 35,
    /// 36: a list is longer than its buffer.
    ListLength = 36,
}

impl Reason {
    /// Every reason, in the order of the numbers.
    ///
    /// ```
    /// use snoekeldraf::Reason;
    ///
    /// assert_eq!(Reason::ALL.len(), 27);
    /// assert_eq!(Reason::ALL[7], Reason::TagDiffers);
    /// ```
    #[rustfmt::skip]
    pub const ALL: [Reason; 27] = {
        use Reason::*;
        [
            Suite, KeyLength, NonceLength, AdLength, TextLength, OutputLength, TagLength, TagDiffers, Session, SuiteRetired,
            FileLength, FileEdition, FileRows, FileTotal, FileTable, RowOrder, RowSuite, RowLengths, RowBody, RowNonce,
            RowJobOrUnit, FileEnd, NoRow, RowTagSet, RowNonceByte, RowStation, ListLength,
        ]
    };

    /// The number of documents 01 and 02.
    ///
    /// ```
    /// assert_eq!(snoekeldraf::Reason::TagDiffers.number(), 8);
    /// ```
    pub const fn number(self) -> u32 {
        self as u32
    }

    /// The reason in the library's words.
    ///
    /// ```
    /// assert_eq!(snoekeldraf::Reason::TagDiffers.words(), "the tag differs");
    /// ```
    pub fn words(self) -> &'static str {
        raw::words(self.number())
    }

    /// The reason with this number. The library is proved to return no other number than these and 0.
    fn with_number(number: u32) -> Reason {
        let known = Reason::ALL.into_iter().find(|reason| reason.number() == number);
        known.expect("the archive belongs to another version of this crate: it returned an unknown status")
    }

    /// Whether the status carries the row at fault in every call that returns it.
    fn carries_row(self) -> bool {
        matches!(self.number(), 25..=30 | 33..=35)
    }
}

impl Display for Reason {
    fn fmt(&self, f: &mut Formatter) -> Written {
        f.write_str(self.words())
    }
}

/// A refused call: the reason, and the row and the file at fault where the reason carries them.
///
/// `Display` gives the library's words and the status. The statuses of each function are listed with it, in the order in which they
/// are checked; the first that applies is returned.
///
/// ```
/// use snoekeldraf::{Reason, ShiftFile};
///
/// let mut bytes = std::fs::read("../../samples/day.shift").unwrap();
/// bytes[8 + 32] = 0; // the job number of row 1 is low
/// bytes[8 + 33] = 0;
/// let refused = ShiftFile::check(&bytes).unwrap_err();
/// assert_eq!((refused.reason, refused.number(), refused.row), (Reason::RowOrder, 25, Some(1)));
/// assert_eq!(refused.to_string(), "the row's job number is not above the row before's (status 25, row 1)");
/// ```
#[derive(Clone, Copy, PartialEq, Eq, Hash, Debug)]
#[non_exhaustive]
pub struct Refused {
    /// Why.
    pub reason: Reason,
    /// The row at fault, counted from 0: with 25 to 30 and 33 to 35 always; with 8 and 10 where a whole file or draft is
    /// worked on; with 3, 7 and 27 of a builder.
    pub row: Option<u32>,
    /// The file at fault where there are two: 1 is the first or the amendment, 2 the second or the day's file.
    pub file: Option<u32>,
}

impl Refused {
    /// A reason without row and file.
    pub(crate) const fn of(reason: Reason) -> Refused {
        Refused { reason, row: None, file: None }
    }

    /// The reason's number in documents 01 and 02. It is never 0.
    ///
    /// ```
    /// assert_eq!(snoekeldraf::Suite::try_from(7).unwrap_err().number(), 1);
    /// ```
    pub const fn number(&self) -> u32 {
        self.reason.number()
    }

    /// The reason in the library's words, without number, row and file.
    ///
    /// ```
    /// let refused = snoekeldraf::Suite::try_from(7).unwrap_err();
    /// assert_eq!(refused.words(), "the suite is not 1 to 6");
    /// ```
    pub fn words(&self) -> &'static str {
        self.reason.words()
    }
}

impl Display for Refused {
    fn fmt(&self, f: &mut Formatter) -> Written {
        write!(f, "{} (status {}", self.words(), self.number())?;
        if let Some(row) = self.row {
            write!(f, ", row {row}")?;
        }
        if let Some(file) = self.file {
            write!(f, ", file {file}")?;
        }
        f.write_str(")")
    }
}

impl Error for Refused {}

/// Ok on 0; else the reason alone.
pub(crate) fn done(number: u32) -> Result<(), Refused> {
    match number {
        0 => Ok(()),
        _ => Err(Refused::of(Reason::with_number(number))),
    }
}

/// Ok on 0; else the reason with the row that it carries.
pub(crate) fn checked((number, row): raw::Answer) -> Result<(), Refused> {
    done(number).map_err(|refused| Refused { row: refused.reason.carries_row().then_some(row), ..refused })
}

/// The same for a whole file or draft: 8 and 10 carry a row too.
pub(crate) fn worked((number, row): raw::Answer) -> Result<(), Refused> {
    checked((number, row)).map_err(|refused| match refused.reason {
        Reason::TagDiffers | Reason::SuiteRetired => Refused { row: Some(row), ..refused },
        _ => refused,
    })
}

/// The same for two files; 0 is neither.
pub(crate) fn of_two(number: u32, [file, row]: [u32; 2]) -> Result<(), Refused> {
    checked((number, row)).map_err(|refused| Refused { file: (file != 0).then_some(file), ..refused })
}
