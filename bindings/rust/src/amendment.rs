//! Amendments.

use crate::file::part;
use crate::refused::of_two;
use crate::secret::forgetting;
use crate::{raw, Refused, Ring, Verified};
#[cfg(feature = "alloc")]
use {
    crate::ShiftFile,
    alloc::{vec, vec::Vec},
};

/// Which file holds a job's current entry.
///
/// ```
/// use snoekeldraf::{unverified_current, Holder};
///
/// let amendment = std::fs::read("../../samples/amendment.shift")?;
/// let day = std::fs::read("../../samples/day.shift")?;
/// assert_eq!(unverified_current(&amendment, &day, 4103)?.holder, Holder::Day);
/// # Ok::<(), Box<dyn std::error::Error>>(())
/// ```
#[derive(Clone, Copy, PartialEq, Eq, PartialOrd, Ord, Hash, Debug)]
pub enum Holder {
    /// File 1.
    Amendment,
    /// File 2.
    Day,
}

impl Holder {
    fn of(file: u32) -> Holder {
        match file {
            1 => Holder::Amendment,
            _ => Holder::Day,
        }
    }

    fn choose<'a>(self, amendment: &'a [u8], day: &'a [u8]) -> &'a [u8] {
        match self {
            Holder::Amendment => amendment,
            Holder::Day => day,
        }
    }
}

/// Where the current entry of a job is: what [`unverified_current`] returns.
///
/// ```
/// use snoekeldraf::{unverified_current, Current, Holder};
///
/// let amendment = std::fs::read("../../samples/amendment.shift")?;
/// let day = std::fs::read("../../samples/day.shift")?;
/// let Current { holder, row, unverified_ad } = unverified_current(&amendment, &day, 4102)?;
/// assert_eq!((holder, row), (Holder::Amendment, 0));
/// assert!(unverified_ad.ends_with(b"quality"));
/// # Ok::<(), Box<dyn std::error::Error>>(())
/// ```
#[derive(Clone, Copy, PartialEq, Eq, Debug)]
pub struct Current<'a> {
    /// Which file holds it.
    pub holder: Holder,
    /// Its row there, counted from 0.
    pub row: u32,
    /// Its associated data, a part of that file; no tag was compared.
    pub unverified_ad: &'a [u8],
}

/// Finds the current entry of a job, not verified. An amendment is a small shift file that replaces some jobs of the day's:
/// the current entry is the amendment's if it has the job, else the day's.
///
/// Statuses, in this order: those of [`ShiftFile::check`](crate::ShiftFile::check) for the amendment (file 1), then for the
/// day's file (file 2), also if the amendment has the job; 32, with no file, exactly if neither has the job.
///
/// ```
/// use snoekeldraf::{unverified_current, Holder};
///
/// let amendment = std::fs::read("../../samples/amendment.shift")?;
/// let day = std::fs::read("../../samples/day.shift")?;
/// assert_eq!(unverified_current(&amendment, &day, 4102)?.holder, Holder::Amendment);
/// assert_eq!(unverified_current(&amendment, &day, 4104).unwrap_err().number(), 32);
/// # Ok::<(), Box<dyn std::error::Error>>(())
/// ```
pub fn unverified_current<'a>(amendment: &'a [u8], day: &'a [u8], job: u32) -> Result<Current<'a>, Refused> {
    let (number, [file, row, at, len]) = raw::amended(amendment, day, job);
    of_two(number, [file, row])?;
    let holder = Holder::of(file);
    Ok(Current { holder, row, unverified_ad: part(holder.choose(amendment, day), at, len) })
}

/// Opens the current entry of a job: its message is written to `out`; which file holds it, and what its associated data says,
/// is returned.
///
/// Statuses, in this order: those of [`unverified_current`]; then, with the file that holds the entry, 6 if `out` is not as long
/// as the message, 8 if the tag differs. On 8 every byte of `out` is 0; every other refusal leaves it unchanged.
///
/// ```
/// use snoekeldraf::{open_amended, Holder, Ring, ShiftFile, Unit};
///
/// let ring = Ring::try_from(&std::fs::read("../../samples/ring.keys")?[..])?;
/// let amendment = std::fs::read("../../samples/amendment.shift")?;
/// let day = std::fs::read("../../samples/day.shift")?;
/// let mut message = vec![0; ShiftFile::check(&amendment)?.unverified_entry(4110)?.text.len()];
/// let (holder, verified) = open_amended(&amendment, &day, &ring, 4110, &mut message)?;
/// assert_eq!((holder, verified.unit()), (Holder::Amendment, Unit::NewtonMetres));
/// assert!(message.ends_with(b"entered by hand"));
/// # Ok::<(), Box<dyn std::error::Error>>(())
/// ```
pub fn open_amended<'a>(
    amendment: &'a [u8],
    day: &'a [u8],
    ring: &Ring,
    job: u32,
    out: &mut [u8],
) -> Result<(Holder, Verified<'a>), Refused> {
    let (number, [file, row]) = forgetting(|| raw::open_amended(amendment, day, ring.bytes(), job, out));
    of_two(number, [file, row])?;
    // The same two files and job: this is the entry whose tag was compared.
    let current = unverified_current(amendment, day, job)?;
    Ok((current.holder, Verified::compared(current.unverified_ad)?))
}

/// As [`open_amended`]; returns the message too.
///
/// ```
/// use snoekeldraf::{open_amended_vec, Holder, Ring};
///
/// let ring = Ring::try_from(&std::fs::read("../../samples/ring.keys")?[..])?;
/// let amendment = std::fs::read("../../samples/amendment.shift")?;
/// let day = std::fs::read("../../samples/day.shift")?;
/// let (holder, verified, message) = open_amended_vec(&amendment, &day, &ring, 4103)?;
/// assert_eq!((holder, verified.job()), (Holder::Day, 4103));
/// assert!(message.starts_with(b"gearbox 4103"));
/// # Ok::<(), Box<dyn std::error::Error>>(())
/// ```
#[cfg(feature = "alloc")]
pub fn open_amended_vec<'a>(
    amendment: &'a [u8],
    day: &'a [u8],
    ring: &Ring,
    job: u32,
) -> Result<(Holder, Verified<'a>, Vec<u8>), Refused> {
    let holder = unverified_current(amendment, day, job)?.holder;
    let entry = ShiftFile::check(holder.choose(amendment, day))?.unverified_entry(job)?;
    let mut out = vec![0; entry.text.len()];
    let (holder, verified) = open_amended(amendment, day, ring, job, &mut out)?;
    Ok((holder, verified, out))
}
