//! The shift file.

use crate::refused::{checked, done};
use crate::secret::forgetting;
use crate::{raw, Entry, Refused, Ring, Suite, Unit, Verified};
#[cfg(feature = "alloc")]
use alloc::{vec, vec::Vec};
use core::iter::FusedIterator;

/// A shift file that has passed the full check, of edition 1 or 2: a table of contents and the sealed records of a day. It
/// borrows the caller's bytes; [`check`](ShiftFile::check) alone makes one.
///
/// The library keeps no state between calls: `lookup`, `verified`, `open_job` and the `unverified_` functions check the file
/// again. `entries`, [`Entry::open`], [`Entry::verify`] and `search` do not: to open many jobs, use these.
///
/// ```
/// use snoekeldraf::{Ring, ShiftFile, Unit};
///
/// let ring = Ring::try_from(&std::fs::read("../../samples/ring.keys")?[..])?;
/// let bytes = std::fs::read("../../samples/day.shift")?;
/// let file = ShiftFile::check(&bytes)?;
/// assert_eq!(file.verified(&ring, 4103)?.unit(), Unit::InchPounds);
/// # Ok::<(), Box<dyn std::error::Error>>(())
/// ```
///
/// It lives no longer than the bytes, and they cannot change under it:
///
/// ```compile_fail,E0506
/// # use snoekeldraf::ShiftFile;
/// let mut bytes = [1, 0, 0, 0, 8, 0, 0, 0];
/// let file = ShiftFile::check(&bytes).unwrap();
/// bytes[2] = 1;
/// file.entries();
/// ```
#[derive(Clone, Copy, PartialEq, Eq, Debug)]
pub struct ShiftFile<'a> {
    bytes: &'a [u8],
}

impl<'a> ShiftFile<'a> {
    /// The full check.
    ///
    /// Statuses, in this order: 20 if there are fewer than 8 bytes or more than 1,048,576; 21 if the edition is not 1 or 2; 22
    /// if there are more than 512 rows; 23 if the total length is another; 24 if the table runs past the end. Then for each
    /// row, which the number carries: 25 if its job number is not above the row before's; 26 if its suite is not 1 to 6 or its
    /// key number is over 15; 27 if its associated data is not 5 to 1,024 bytes long or its message is over 65,536; 28 if its
    /// body does not start where the one before ends, or runs past the end; 34 if the 16th byte of a 15-byte nonce is not 0;
    /// 29 if an earlier row has its suite, key number and nonce; 30 if its associated data has another job number, or a unit
    /// that is not 1 or 2. At last 31 if the last body does not end where the file ends.
    ///
    /// ```
    /// use snoekeldraf::{Reason, ShiftFile};
    ///
    /// // the empty file, whole
    /// assert!(ShiftFile::check(&[1, 0, 0, 0, 8, 0, 0, 0]).is_ok());
    /// assert_eq!(ShiftFile::check(&[3, 0, 0, 0, 8, 0, 0, 0]).unwrap_err().reason, Reason::FileEdition);
    /// ```
    pub fn check(bytes: &'a [u8]) -> Result<ShiftFile<'a>, Refused> {
        checked(raw::check(bytes))?;
        Ok(ShiftFile { bytes })
    }

    /// The caller's bytes.
    ///
    /// ```
    /// use snoekeldraf::ShiftFile;
    ///
    /// let empty = [1, 0, 0, 0, 8, 0, 0, 0];
    /// assert_eq!(ShiftFile::check(&empty)?.bytes(), empty);
    /// # Ok::<(), snoekeldraf::Refused>(())
    /// ```
    pub fn bytes(self) -> &'a [u8] {
        self.bytes
    }

    /// The edition, 1 or 2. In edition 2 every row has a station number.
    ///
    /// ```
    /// use snoekeldraf::ShiftFile;
    ///
    /// let bytes = std::fs::read("../../samples/stations.shift")?;
    /// assert_eq!(ShiftFile::check(&bytes)?.edition(), 2);
    /// # Ok::<(), Box<dyn std::error::Error>>(())
    /// ```
    pub fn edition(self) -> u32 {
        let (_, [edition, _]) = raw::rows(self.bytes);
        edition
    }

    /// The job, unit and data of a job, after its tag was compared under the ring's key. No message is written anywhere.
    ///
    /// Statuses, in this order: 32 if no row has the job; 8 if the tag differs.
    ///
    /// ```
    /// use snoekeldraf::{Reason, Ring, ShiftFile, Unit};
    ///
    /// let ring = Ring::try_from(&std::fs::read("../../samples/ring.keys")?[..])?;
    /// let mut bytes = std::fs::read("../../samples/day.shift")?;
    /// let verified = ShiftFile::check(&bytes)?.verified(&ring, 4101)?;
    /// assert_eq!((verified.job(), verified.unit()), (4101, Unit::NewtonMetres));
    ///
    /// let unit_of_row_0 = 8 + 32 * 8 + 4;
    /// bytes[unit_of_row_0] = 2; // the file still passes the check, and says inch-pounds
    /// let file = ShiftFile::check(&bytes)?;
    /// assert_eq!(file.unverified_entry(4101)?.unverified_unit, Unit::InchPounds);
    /// assert_eq!(file.verified(&ring, 4101).unwrap_err().reason, Reason::TagDiffers);
    /// # Ok::<(), Box<dyn std::error::Error>>(())
    /// ```
    pub fn verified(self, ring: &Ring, job: u32) -> Result<Verified<'a>, Refused> {
        let (answer, [at, len]) = forgetting(|| raw::verified(self.bytes, ring.bytes(), job));
        checked(answer)?;
        Verified::compared(part(self.bytes, at, len))
    }

    /// Opens one job: its message is written to `out`, which is as long as the entry's text, and what the associated data says
    /// is returned.
    ///
    /// Statuses, in this order: 32 if no row has the job, and no key is used then; 6 if `out` has another length; 8 if the tag
    /// differs. On 8 every byte of `out` is 0; every other refusal leaves it unchanged.
    ///
    /// ```
    /// use snoekeldraf::{Ring, ShiftFile, Unit};
    ///
    /// let ring = Ring::try_from(&std::fs::read("../../samples/ring.keys")?[..])?;
    /// let bytes = std::fs::read("../../samples/day.shift")?;
    /// let file = ShiftFile::check(&bytes)?;
    /// let mut message = vec![0; file.unverified_entry(4103)?.text.len()];
    /// assert_eq!(file.open_job(&ring, 4103, &mut message)?.unit(), Unit::InchPounds);
    /// assert!(message.starts_with(b"gearbox 4103 bolt 1/4-28"));
    /// # Ok::<(), Box<dyn std::error::Error>>(())
    /// ```
    pub fn open_job(self, ring: &Ring, job: u32, out: &mut [u8]) -> Result<Verified<'a>, Refused> {
        checked(forgetting(|| raw::open_job(self.bytes, ring.bytes(), job, out)))?;
        let row = self.search(job).found?;
        Ok(self.row(row)?.compared())
    }

    /// The entries, in the table's order.
    ///
    /// ```
    /// use snoekeldraf::ShiftFile;
    ///
    /// let bytes = std::fs::read("../../samples/day.shift")?;
    /// let file = ShiftFile::check(&bytes)?;
    /// let jobs: Vec<u32> = file.entries().map(|entry| entry.unverified_job).collect();
    /// assert_eq!(jobs, [4101, 4102, 4103, 4105, 4110, 4200, 4210, 4211]);
    /// # Ok::<(), Box<dyn std::error::Error>>(())
    /// ```
    pub fn entries(self) -> Entries<'a> {
        let (_, [_, count]) = raw::rows(self.bytes);
        Entries { file: self, next: 0, count }
    }

    /// The row of a job; status 32 if no row has it. [`search`](ShiftFile::search) returns the same row, sooner.
    ///
    /// ```
    /// use snoekeldraf::ShiftFile;
    ///
    /// let bytes = std::fs::read("../../samples/day.shift")?;
    /// let file = ShiftFile::check(&bytes)?;
    /// assert_eq!(file.lookup(4103), Ok(2));
    /// assert_eq!(file.lookup(4104).unwrap_err().number(), 32);
    /// # Ok::<(), Box<dyn std::error::Error>>(())
    /// ```
    pub fn lookup(self, job: u32) -> Result<u32, Refused> {
        let answer = raw::lookup(self.bytes, job);
        checked(answer)?;
        Ok(answer.1)
    }

    /// The row of a job by binary search. It looks at no more than 10 rows.
    ///
    /// ```
    /// use snoekeldraf::ShiftFile;
    ///
    /// let bytes = std::fs::read("../../samples/day.shift")?;
    /// let searched = ShiftFile::check(&bytes)?.search(4110);
    /// assert_eq!((searched.found, searched.looked), (Ok(4), 1)); // row 4 of 8 is looked at first
    /// # Ok::<(), Box<dyn std::error::Error>>(())
    /// ```
    pub fn search(self, job: u32) -> Searched {
        search(self.bytes, job)
    }

    /// The entry of a job, not verified; status 32 if no row has the job.
    ///
    /// ```
    /// use snoekeldraf::{ShiftFile, Suite};
    ///
    /// let bytes = std::fs::read("../../samples/stations.shift")?;
    /// let entry = ShiftFile::check(&bytes)?.unverified_entry(4200)?;
    /// assert_eq!((entry.row, entry.unverified_station, entry.suite), (5, 311, Suite::Aes128));
    /// # Ok::<(), Box<dyn std::error::Error>>(())
    /// ```
    pub fn unverified_entry(self, job: u32) -> Result<Entry<'a>, Refused> {
        let (answer, [ad_at, ad_len, text_at, text_len]) = raw::entry(self.bytes, job);
        checked(answer)?;
        let (unverified_ad, text) = (part(self.bytes, ad_at, ad_len), part(self.bytes, text_at, text_len));
        Ok(Entry { unverified_ad, text, ..self.row(answer.1)? })
    }

    /// The associated data of a job, not verified, a part of the caller's bytes; status 32 if no row has the job.
    ///
    /// ```
    /// use snoekeldraf::ShiftFile;
    ///
    /// let bytes = std::fs::read("../../samples/day.shift")?;
    /// let ad = ShiftFile::check(&bytes)?.unverified_ad(4110)?;
    /// assert_eq!(ad, [0x0e, 0x10, 0, 0, 1]); // job 4110, newton-metres
    /// assert!(bytes.as_ptr_range().contains(&ad.as_ptr()));
    /// # Ok::<(), Box<dyn std::error::Error>>(())
    /// ```
    pub fn unverified_ad(self, job: u32) -> Result<&'a [u8], Refused> {
        let (number, [at, len]) = raw::associated(self.bytes, job);
        done(number)?;
        Ok(part(self.bytes, at, len))
    }

    /// As [`open_job`](ShiftFile::open_job); returns the message too.
    ///
    /// ```
    /// use snoekeldraf::{Ring, ShiftFile};
    ///
    /// let ring = Ring::try_from(&std::fs::read("../../samples/ring.keys")?[..])?;
    /// let bytes = std::fs::read("../../samples/day.shift")?;
    /// let file = ShiftFile::check(&bytes)?;
    /// let (verified, message) = file.open_job_vec(&ring, 4105)?; // suite 4 is opened
    /// assert!(message.starts_with(b"gearbox 4105"));
    /// assert_eq!(file.open_job_vec(&ring, 4106).unwrap_err().number(), 32);
    /// # assert_eq!(verified.job(), 4105);
    /// # Ok::<(), Box<dyn std::error::Error>>(())
    /// ```
    #[cfg(feature = "alloc")]
    pub fn open_job_vec(self, ring: &Ring, job: u32) -> Result<(Verified<'a>, Vec<u8>), Refused> {
        let mut out = vec![0; self.unverified_entry(job)?.text.len()];
        let verified = self.open_job(ring, job, &mut out)?;
        Ok((verified, out))
    }

    /// The entry of a row of a checked file; status 32 if there is no such row.
    fn row(self, row: u32) -> Result<Entry<'a>, Refused> {
        let (number, fields) = raw::row(self.bytes, row);
        done(number)?;
        // In a checked file a suite is 1 to 6, a key number at most 15, and a unit 1 or 2: none of these is refused.
        let suite = Suite::try_from(fields.suite as u8)?;
        let unverified_ad = part(self.bytes, fields.ad_at, fields.ad_len);
        let after_text = fields.text_at + fields.text_len;
        Ok(Entry {
            row,
            unverified_job: fields.job,
            unverified_station: fields.station,
            suite,
            key_number: fields.key_number as u8,
            nonce: part(self.bytes, fields.nonce_at, suite.nonce_size() as u32),
            unverified_ad,
            unverified_unit: Unit::try_from(unverified_ad[4])?,
            text: part(self.bytes, fields.text_at, fields.text_len),
            tag: part(self.bytes, after_text, suite.tag_size() as u32),
        })
    }
}

/// `len` bytes from an offset.
pub(crate) fn part(bytes: &[u8], at: u32, len: u32) -> &[u8] {
    &bytes[at as usize..][..len as usize]
}

/// The entries of a shift file, in the table's order: what [`ShiftFile::entries`] returns.
///
/// ```
/// use snoekeldraf::ShiftFile;
///
/// let mut entries = ShiftFile::check(&[1, 0, 0, 0, 8, 0, 0, 0])?.entries();
/// assert_eq!((entries.len(), entries.next(), entries.next()), (0, None, None));
/// # Ok::<(), snoekeldraf::Refused>(())
/// ```
#[derive(Clone, Debug)]
pub struct Entries<'a> {
    file: ShiftFile<'a>,
    next: u32,
    count: u32,
}

impl<'a> Iterator for Entries<'a> {
    type Item = Entry<'a>;

    fn next(&mut self) -> Option<Entry<'a>> {
        if self.next == self.count {
            return None;
        }
        let entry = self.file.row(self.next).ok();
        self.next += 1;
        entry
    }

    fn size_hint(&self) -> (usize, Option<usize>) {
        let left = (self.count - self.next) as usize;
        (left, Some(left))
    }
}

impl ExactSizeIterator for Entries<'_> {}

impl FusedIterator for Entries<'_> {}

impl<'a> IntoIterator for ShiftFile<'a> {
    type Item = Entry<'a>;
    type IntoIter = Entries<'a>;

    fn into_iter(self) -> Entries<'a> {
        self.entries()
    }
}

/// The job number in a row, not verified, of bytes that need not have passed the check: only 20 to 24 of
/// [`ShiftFile::check`] are checked, and 32 if there is no such row. For messages about a file that was refused at a row.
///
/// ```
/// use snoekeldraf::{unverified_job, ShiftFile};
///
/// let mut bytes = std::fs::read("../../samples/day.shift").unwrap();
/// let suite_of_row_2 = 8 + 32 * 2 + 4;
/// bytes[suite_of_row_2] = 9;
/// let refused = ShiftFile::check(&bytes).unwrap_err();
/// assert_eq!((refused.number(), refused.row), (26, Some(2)));
/// assert_eq!(unverified_job(&bytes, 2), Ok(4103));
/// assert_eq!(unverified_job(&bytes, 8).unwrap_err().number(), 32);
/// ```
pub fn unverified_job(file: &[u8], row: u32) -> Result<u32, Refused> {
    let (number, fields) = raw::row(file, row);
    done(number)?;
    Ok(fields.job)
}

/// The result of a search.
///
/// ```
/// use snoekeldraf::{search, Searched};
///
/// let Searched { found, looked } = search(&[1, 0, 0, 0, 8, 0, 0, 0], 7);
/// assert_eq!((found.unwrap_err().number(), looked), (32, 0));
/// ```
#[derive(Clone, Copy, PartialEq, Eq, Debug)]
pub struct Searched {
    /// The row, or status 32 if none has the job, or 20 to 24.
    pub found: Result<u32, Refused>,
    /// How many rows were looked at: at most 10, and 0 on 20 to 24.
    pub looked: u32,
}

/// Finds a job by binary search in bytes that need not have passed the check: only 20 to 24 of [`ShiftFile::check`] are
/// checked.
///
/// From c rows at row s it looks at row s + c/2, rounded down; it stops if that has the job, and continues with the rows after
/// it if its job is lower, else with those before; 32 when no row is left. No body is read. On a file that passes the check
/// the result is that of [`ShiftFile::lookup`]; on another it is whatever the search reaches.
///
/// ```
/// use snoekeldraf::search;
///
/// let mut bytes = std::fs::read("../../samples/day.shift").unwrap();
/// let last = bytes.len() - 1;
/// bytes[last] ^= 1;
/// assert_eq!(search(&bytes, 4101).found, Ok(0));
/// assert_eq!(search(&bytes, 4104).found.unwrap_err().number(), 32);
/// assert_eq!(search(&bytes[..7], 4101).found.unwrap_err().number(), 20);
/// ```
pub fn search(file: &[u8], job: u32) -> Searched {
    let (answer, looked) = raw::search(file, job);
    Searched { found: checked(answer).map(|()| answer.1), looked }
}
