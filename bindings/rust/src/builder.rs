//! Making drafts and shift files.

use crate::{Draft, Nonce, Reason, Refused, ShiftFile, Suite, Unit};
use alloc::vec::Vec;

/// An entry of a draft: what the plant wants done, before it is sealed.
///
/// ```
/// use snoekeldraf::{DraftEntry, NonceCounter, Suite, Unit};
///
/// let nonce = NonceCounter::new(b"office1")?.take().ok_or("used up")?;
/// let (suite, unit) = (Suite::Speck64, Unit::NewtonMetres);
/// let entry = DraftEntry { job: 7, suite, key_number: 3, nonce, unit, data: b"", message: b"48.5" };
/// # let _ = entry;
/// # Ok::<(), Box<dyn std::error::Error>>(())
/// ```
#[derive(Debug)]
pub struct DraftEntry<'a> {
    /// The job number, above that of the entry before.
    pub job: u32,
    /// The suite; not suite 4, which is retired.
    pub suite: Suite,
    /// Which key of the ring, 0 to 15.
    pub key_number: u8,
    /// The nonce that the entry will be sealed with.
    pub nonce: Nonce,
    /// The unit of the torques in the message.
    pub unit: Unit,
    /// What follows job number and unit in the associated data, at most 1,019 bytes. It stays readable.
    pub data: &'a [u8],
    /// The message, at most 65,536 bytes.
    pub message: &'a [u8],
}

/// An entry of a shift file: a sealed record as a wrench sent it.
///
/// ```
/// use snoekeldraf::{FileEntry, Suite};
///
/// let ad = [7, 0, 0, 0, 1]; // job 7, newton-metres
/// let entry = FileEntry { job: 7, station: 0, suite: Suite::Speck64, key_number: 3, nonce: &[1; 15], ad: &ad, text: b"", tag: &[0; 8] };
/// # let _ = entry;
/// ```
#[derive(Clone, Copy, PartialEq, Eq, Debug)]
pub struct FileEntry<'a> {
    /// The job number, above that of the entry before, and the first four bytes of `ad`.
    pub job: u32,
    /// The station number; 0 in edition 1.
    pub station: u32,
    /// The suite.
    pub suite: Suite,
    /// Which key of the ring, 0 to 15.
    pub key_number: u8,
    /// The nonce, as long as the suite requires.
    pub nonce: &'a [u8],
    /// The associated data: job number (4 bytes, little-endian), unit (1 byte), and what else there is.
    pub ad: &'a [u8],
    /// The ciphertext.
    pub text: &'a [u8],
    /// The tag, as long as the suite requires.
    pub tag: &'a [u8],
}

/// Makes a draft of entries, in the order of their job numbers. [`finish`](DraftBuilder::finish) works out offsets and total
/// length and returns the bytes only if [`Draft::check`] accepts them.
///
/// ```
/// use snoekeldraf::{Draft, DraftBuilder, DraftEntry, NonceCounter, Ring, ShiftFile, Suite, Unit};
///
/// let mut nonces = NonceCounter::new(b"office1")?;
/// let mut builder = DraftBuilder::new();
/// for (job, message) in [(7, "torque 48.5"), (9, "torque 12.0")] {
///     builder.push(DraftEntry {
///         job,
///         suite: Suite::Speck64,
///         key_number: 3,
///         nonce: nonces.take().ok_or("used up")?, // store `nonces.state()` before the draft is sealed
///         unit: Unit::NewtonMetres,
///         data: b"line 2",
///         message: message.as_bytes(),
///     });
/// }
/// let draft = builder.finish()?;
///
/// let ring = Ring::from([7; 256]);
/// let file = Draft::check(&draft)?.seal_vec(&ring)?;
/// let (verified, message) = ShiftFile::check(&file)?.open_job_vec(&ring, 9)?;
/// assert_eq!((verified.unit(), verified.data(), &message[..]), (Unit::NewtonMetres, &b"line 2"[..], &b"torque 12.0"[..]));
/// # Ok::<(), Box<dyn std::error::Error>>(())
/// ```
#[derive(Debug)]
pub struct DraftBuilder {
    layout: Layout,
}

impl DraftBuilder {
    /// A draft without entries.
    ///
    /// ```
    /// assert_eq!(snoekeldraf::DraftBuilder::new().finish()?, [0, 0, 0, 0, 8, 0, 0, 0]);
    /// # Ok::<(), snoekeldraf::Refused>(())
    /// ```
    #[allow(clippy::new_without_default)] // a draft is begun deliberately
    pub fn new() -> DraftBuilder {
        DraftBuilder { layout: Layout::new(0) }
    }

    /// Adds an entry.
    ///
    /// ```
    /// use snoekeldraf::{DraftBuilder, DraftEntry, Nonce, Reason, Suite, Unit};
    ///
    /// let mut builder = DraftBuilder::new();
    /// for nonce in [[1; 15], [2; 15]] {
    ///     let (nonce, unit) = (Nonce::assume_fresh(&nonce)?, Unit::InchPounds);
    ///     builder.push(DraftEntry { job: 7, suite: Suite::Speck64, key_number: 0, nonce, unit, data: b"", message: b"" });
    /// }
    /// let refused = builder.finish().unwrap_err();
    /// assert_eq!((refused.reason, refused.row), (Reason::RowOrder, Some(1))); // job 7 twice
    /// # Ok::<(), snoekeldraf::Refused>(())
    /// ```
    pub fn push(&mut self, entry: DraftEntry) {
        let DraftEntry { job, suite, key_number, nonce, unit, data, message } = entry;
        let head = [&job.to_le_bytes()[..], &[unit.number()]].concat();
        let row = Row::new(job, 0, suite, key_number);
        self.layout.push(row, nonce.as_bytes(), [&head, data], message, &[0; 16][..suite.tag_size()]);
    }

    /// The draft. Statuses, in this order, with the entry's index as the row: 3 if a nonce does not have its suite's length, 27 if
    /// associated data is over 65,535 bytes long; then those of [`Draft::check`].
    ///
    /// ```
    /// use snoekeldraf::{Draft, DraftBuilder};
    ///
    /// let draft = DraftBuilder::new().finish()?;
    /// assert!(Draft::check(&draft).is_ok());
    /// # Ok::<(), snoekeldraf::Refused>(())
    /// ```
    pub fn finish(self) -> Result<Vec<u8>, Refused> {
        let bytes = self.layout.bytes()?;
        Draft::check(&bytes)?;
        Ok(bytes)
    }
}

/// Makes a shift file of sealed records, in the order of their job numbers. No key is needed, and no tag is compared.
/// [`finish`](FileBuilder::finish) works out offsets and total length and returns the bytes only if [`ShiftFile::check`]
/// accepts them.
///
/// ```
/// use snoekeldraf::{seal_vec, FileBuilder, FileEntry, Key, Nonce, Record, Ring, ShiftFile, Suite, Unit};
///
/// // a wrench seals with key 3 of the ring
/// let (suite, nonce, ad) = (Suite::Speck64, [1; 15], [7, 0, 0, 0, 2]); // job 7, inch-pounds
/// let record = Record { ad: &ad, text: b"torque 48.5" };
/// let (text, tag) = seal_vec(suite, &Key::from([3; 16]), Nonce::assume_fresh(&nonce)?, record)?;
///
/// // a line server collects what the wrenches sent
/// let mut builder = FileBuilder::edition2();
/// let tag = tag.as_bytes();
/// builder.push(FileEntry { job: 7, station: 311, suite, key_number: 3, nonce: &nonce, ad: &ad, text: &text, tag });
/// let file = builder.finish()?;
///
/// // the office has the ring
/// let verified = ShiftFile::check(&file)?.verified(&Ring::from([3; 256]), 7)?;
/// assert_eq!(verified.unit(), Unit::InchPounds);
/// # Ok::<(), snoekeldraf::Refused>(())
/// ```
#[derive(Debug)]
pub struct FileBuilder {
    layout: Layout,
}

impl FileBuilder {
    /// A file of edition 1, without entries. Its rows have no station.
    ///
    /// ```
    /// assert_eq!(snoekeldraf::FileBuilder::edition1().finish()?, [1, 0, 0, 0, 8, 0, 0, 0]);
    /// # Ok::<(), snoekeldraf::Refused>(())
    /// ```
    pub fn edition1() -> FileBuilder {
        FileBuilder { layout: Layout::new(1) }
    }

    /// A file of edition 2, without entries. Its rows have station numbers.
    ///
    /// ```
    /// assert_eq!(snoekeldraf::FileBuilder::edition2().finish()?, [2, 0, 0, 0, 8, 0, 0, 0]);
    /// # Ok::<(), snoekeldraf::Refused>(())
    /// ```
    pub fn edition2() -> FileBuilder {
        FileBuilder { layout: Layout::new(2) }
    }

    /// Adds an entry, of a wrench or of another file.
    ///
    /// ```
    /// use snoekeldraf::{FileBuilder, FileEntry, ShiftFile};
    ///
    /// let bytes = std::fs::read("../../samples/day.shift")?;
    /// let mut builder = FileBuilder::edition1();
    /// for entry in ShiftFile::check(&bytes)?.entries() {
    ///     builder.push(FileEntry::from(entry));
    /// }
    /// assert_eq!(builder.finish()?, bytes);
    /// # Ok::<(), Box<dyn std::error::Error>>(())
    /// ```
    pub fn push(&mut self, entry: FileEntry) {
        let FileEntry { job, station, suite, key_number, nonce, ad, text, tag } = entry;
        self.layout.push(Row::new(job, station, suite, key_number), nonce, [ad, &[]], text, tag);
    }

    /// The file. Statuses, in this order, with the entry's index as the row: 3 if a nonce does not have its suite's length, 7 if
    /// a tag does not, 27 if associated data is over 65,535 bytes long, 35 if a station of edition 1 is not 0; then those of
    /// [`ShiftFile::check`].
    ///
    /// ```
    /// use snoekeldraf::{FileBuilder, FileEntry, Reason, Suite};
    ///
    /// let entry = FileEntry {
    ///     job: 7, station: 0, suite: Suite::Aes128, key_number: 0, nonce: &[1; 16], ad: &[7, 0, 0, 0, 3], text: b"", tag: &[0; 16],
    /// };
    /// let mut builder = FileBuilder::edition1();
    /// builder.push(entry);
    /// assert_eq!(builder.finish().unwrap_err().reason, Reason::RowJobOrUnit); // there is no unit 3
    /// ```
    pub fn finish(self) -> Result<Vec<u8>, Refused> {
        let bytes = self.layout.bytes()?;
        ShiftFile::check(&bytes)?;
        Ok(bytes)
    }
}

/// The entry of a file as it stands there.
impl<'a> From<crate::Entry<'a>> for FileEntry<'a> {
    fn from(entry: crate::Entry<'a>) -> FileEntry<'a> {
        let crate::Entry { suite, key_number, nonce, unverified_ad: ad, text, tag, .. } = entry;
        FileEntry {
            job: entry.unverified_job,
            station: entry.unverified_station,
            suite,
            key_number,
            nonce,
            ad,
            text,
            tag,
        }
    }
}

/// Length of the header: edition (2 bytes), number of rows (2), total length (4).
const HEADER_SIZE: usize = 8;

/// A row of the table, without its offset.
#[derive(Debug)]
struct Row {
    job: u32,
    station: u32,
    suite: Suite,
    key_number: u8,
    ad_len: u16,
    text_len: u32,
    nonce: [u8; 16],
    /// Where its body ends, from the start of the first body.
    end: usize,
}

impl Row {
    fn new(job: u32, station: u32, suite: Suite, key_number: u8) -> Row {
        Row { job, station, suite, key_number, ad_len: 0, text_len: 0, nonce: [0; 16], end: 0 }
    }

    fn write(&self, offset: usize, with_station: bool, bytes: &mut Vec<u8>) {
        bytes.extend(self.job.to_le_bytes());
        if with_station {
            bytes.extend(self.station.to_le_bytes());
        }
        bytes.extend([self.suite.number(), self.key_number]);
        bytes.extend(self.ad_len.to_le_bytes());
        bytes.extend(saturated(offset).to_le_bytes());
        bytes.extend(self.text_len.to_le_bytes());
        bytes.extend(self.nonce);
    }
}

/// A length as the file holds it. One that does not fit stands in a file that is too long, which the check refuses.
fn saturated(length: usize) -> u32 {
    u32::try_from(length).unwrap_or(u32::MAX)
}

/// The rows and bodies of a file or a draft, and the first entry that cannot be laid out.
#[derive(Debug)]
struct Layout {
    edition: u16,
    rows: Vec<Row>,
    bodies: Vec<u8>,
    refused: Option<Refused>,
}

impl Layout {
    fn new(edition: u16) -> Layout {
        Layout { edition, rows: Vec::new(), bodies: Vec::new(), refused: None }
    }

    /// Adds a row and its body: associated data in two pieces, text, tag.
    fn push(&mut self, mut row: Row, nonce: &[u8], ad: [&[u8]; 2], text: &[u8], tag: &[u8]) {
        let ad_len = u16::try_from(ad[0].len() + ad[1].len());
        let faults = [
            (nonce.len() != row.suite.nonce_size(), Reason::NonceLength),
            (tag.len() != row.suite.tag_size(), Reason::TagLength),
            (ad_len.is_err(), Reason::RowLengths),
            (self.edition != 2 && row.station != 0, Reason::RowStation),
        ];
        let index = saturated(self.rows.len());
        if let (None, Some((_, reason))) = (self.refused, faults.into_iter().find(|(applies, _)| *applies)) {
            self.refused = Some(Refused { row: Some(index), ..Refused::of(reason) });
        }
        row.nonce.iter_mut().zip(nonce).for_each(|(to, byte)| *to = *byte);
        row.ad_len = ad_len.unwrap_or(u16::MAX);
        row.text_len = saturated(text.len());
        [ad[0], ad[1], text, tag].into_iter().for_each(|piece| self.bodies.extend_from_slice(piece));
        row.end = self.bodies.len();
        self.rows.push(row);
    }

    /// The bytes, or why an entry cannot be laid out.
    fn bytes(&self) -> Result<Vec<u8>, Refused> {
        if let Some(refused) = self.refused {
            return Err(refused);
        }
        let with_station = self.edition == 2;
        let first_body = HEADER_SIZE + self.rows.len() * if with_station { 36 } else { 32 };
        let total = first_body + self.bodies.len();
        let mut bytes = Vec::with_capacity(total);
        bytes.extend(self.edition.to_le_bytes());
        bytes.extend(u16::try_from(self.rows.len()).unwrap_or(u16::MAX).to_le_bytes());
        bytes.extend(saturated(total).to_le_bytes());
        let mut offset = first_body;
        for row in &self.rows {
            row.write(offset, with_station, &mut bytes);
            offset = first_body + row.end;
        }
        bytes.extend_from_slice(&self.bodies);
        Ok(bytes)
    }
}
