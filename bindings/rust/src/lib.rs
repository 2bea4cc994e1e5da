//! Sealing, opening, sessions and the shift file of Snoekeldraf, for line servers and controllers.
//!
//! The work is done by a library in which every function is proved to return, for every input, the status and the output that
//! documents 01 and 02 specify. Its C functions leave obligations to the caller that C does not check. Here the compiler
//! checks them: a slice has its length, an output overlaps nothing else, a suite is one of six, a nonce seals one record, a
//! session is continued once, and a unit is genuine only after its tag was compared.
//!
//! ```
//! use snoekeldraf::{Ring, ShiftFile};
//!
//! let ring = Ring::try_from(&std::fs::read("../../samples/ring.keys")?[..])?;
//! let bytes = std::fs::read("../../samples/day.shift")?;
//! let file = ShiftFile::check(&bytes)?;
//! for entry in file.entries() {
//!     let mut message = vec![0; entry.text.len()];
//!     let verified = entry.open(&ring, &mut message)?;
//!     println!("{} in {}: {}", verified.job(), verified.unit(), String::from_utf8_lossy(&message));
//! }
//! # Ok::<(), Box<dyn std::error::Error>>(())
//! ```
//!
//! # Where to look
//!
//! | to | use |
//! |---|---|
//! | seal or open one record | [`seal`], [`open`], [`seal_in_place`], [`open_in_place`], [`verify`] |
//! | seal a record while it is measured | [`Session`] |
//! | get nonces that do not repeat | [`NonceCounter`], [`Nonce`] |
//! | check a shift file and open its jobs | [`ShiftFile`], [`Entry`], [`Verified`] |
//! | find a job's current entry beside an amendment | [`open_amended`], [`unverified_current`] |
//! | make a draft, or a shift file of sealed records | `DraftBuilder`, `FileBuilder` (feature `alloc`) |
//! | seal a draft, unseal or reseal a file | [`Draft`], [`unseal`], [`reseal`] |
//! | move between editions, compare, report | [`to_edition2`], [`to_edition1`], [`compare`], [`report()`] |
//!
//! # Errors
//!
//! A refused call returns [`Refused`]: a [`Reason`], which is a status of documents 01 and 02, and the row and the file at
//! fault where the status carries them. The statuses of each function stand with it, in the order in which they are checked;
//! the first that applies is returned. What the types rule out is refused where the type is made: [`Suite`], [`Key`],
//! [`Ring`], [`Tag`] and [`Nonce`].
//!
//! # Buffers
//!
//! Buffers are borrowed: the functions allocate nothing, keep no state between calls, and the crate is `no_std`. With the
//! feature `alloc`, functions whose names end in `_vec` allocate their output, and the builders exist.
//!
//! # Secrets
//!
//! [`Key`], [`Ring`] and [`Session`] are overwritten with zeros when they are dropped. After each call that has a key, the
//! stack that the library used is overwritten too. Moving a value copies it: the place it was moved from is not overwritten
//! ([`forget`] overwrites the stack). Messages in the caller's buffers, `Vec`s included, are the caller's to overwrite.
//!
//! # Limits
//!
//! Constant time: not claimed. Suites 1 and 5 index lookup tables by secret bytes and can leak through the cache. The library
//! is proved; what this crate adds (types, builders, wiping) is tested, not proved.

#![no_std]
#![forbid(unsafe_op_in_unsafe_fn)]
#![deny(unsafe_code, missing_docs)]

#[cfg(feature = "alloc")]
extern crate alloc;

mod amendment;
#[cfg(feature = "alloc")]
mod builder;
mod difference;
mod editions;
mod entry;
mod file;
mod keys;
mod nonce;
#[allow(unsafe_code, dead_code)]
mod raw;
mod record;
mod refused;
mod report;
#[allow(unsafe_code)]
mod secret;
mod session;
mod suite;
mod tag;
mod unit;
mod writer;

pub use amendment::{open_amended, unverified_current, Current, Holder};
pub use difference::{compare, Difference};
pub use editions::{moved_len, to_edition1, to_edition2};
pub use entry::{Entry, Verified};
pub use file::{search, unverified_job, Entries, Searched, ShiftFile};
pub use keys::{Key, Ring};
pub use nonce::{Nonce, NonceCounter};
pub use record::{
    open, open_counted, open_in_place, seal, seal_counted, seal_in_place, verify, Counted, Record, Sealed,
};
pub use refused::{Reason, Refused};
pub use report::{report, Report};
pub use secret::forget;
pub use session::{HandedBack, Session};
pub use suite::Suite;
pub use tag::Tag;
pub use unit::Unit;
pub use writer::{reseal, unseal, Draft};

#[cfg(feature = "alloc")]
pub use {
    amendment::open_amended_vec,
    builder::{DraftBuilder, DraftEntry, FileBuilder, FileEntry},
    difference::{compare_vec, Differences},
    editions::{to_edition1_vec, to_edition2_vec},
    record::{open_vec, seal_vec},
    report::report_vec,
    writer::{reseal_vec, unseal_vec},
};

/// The most bytes of associated data of a record, and the most of a message: 65,536 each.
///
/// ```
/// use snoekeldraf::{seal_in_place, Key, Nonce, Reason, Suite, TEXT_BYTES_MAX};
///
/// let (key, nonce) = (Key::from([7; 16]), Nonce::assume_fresh(&[0; 16])?);
/// let mut text = vec![0; TEXT_BYTES_MAX + 1];
/// let refused = seal_in_place(Suite::Cham128, &key, nonce, b"", &mut text).unwrap_err();
/// assert_eq!(refused.reason, Reason::TextLength);
/// # Ok::<(), snoekeldraf::Refused>(())
/// ```
pub const TEXT_BYTES_MAX: usize = 65_536;

/// The most bytes of a shift file.
///
/// ```
/// use snoekeldraf::{Reason, ShiftFile, FILE_BYTES_MAX};
///
/// let long = vec![0; FILE_BYTES_MAX + 1];
/// assert_eq!(ShiftFile::check(&long).unwrap_err().reason, Reason::FileLength);
/// ```
pub const FILE_BYTES_MAX: usize = 1_048_576;

/// The most rows of a shift file: lists of so many elements hold what [`compare`] and [`report()`] write.
///
/// ```
/// use snoekeldraf::{report, Ring, ROWS_MAX};
///
/// let ring = Ring::try_from(&std::fs::read("../../samples/ring.keys")?[..])?;
/// let file = std::fs::read("../../samples/day.shift")?;
/// let (mut jobs, mut numbers) = ([0; ROWS_MAX], [0; ROWS_MAX]);
/// assert_eq!(report(&file, &ring, &mut jobs, &mut numbers)?.jobs.len(), 8);
/// # Ok::<(), Box<dyn std::error::Error>>(())
/// ```
pub const ROWS_MAX: usize = 512;

/// The version of the linked library, as the C header numbers it: major, minor, patch.
///
/// ```
/// assert_eq!(snoekeldraf::library_version().0, 1);
/// ```
pub fn library_version() -> (u8, u8, u8) {
    let [_, major, minor, patch] = raw::version().to_be_bytes();
    (major, minor, patch)
}

/// Runs the code of the crate's README.
#[cfg(doctest)]
#[doc = include_str!("../README.md")]
struct Readme;
