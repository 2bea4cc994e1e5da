//! Entries of a shift file, before and after their tags were compared.

use crate::{open, verify, Reason, Refused, Ring, Sealed, Suite, Unit};
#[cfg(feature = "alloc")]
use alloc::{vec, vec::Vec};

/// An entry of a checked shift file. The slices are parts of the file's bytes.
///
/// Nothing here is verified: the check looks at the form of a file, and anyone can write a well-formed one.
/// [`verify`](Entry::verify) and [`open`](Entry::open) compare the tag; what they return is [`Verified`]. The tag is computed
/// from the key, suite, nonce, associated data and text. It does not cover the station.
///
/// ```
/// use snoekeldraf::{Ring, ShiftFile, Unit};
///
/// let ring = Ring::try_from(&std::fs::read("../../samples/ring.keys")?[..])?;
/// let bytes = std::fs::read("../../samples/day.shift")?;
/// for entry in ShiftFile::check(&bytes)?.entries() {
///     let claimed: Unit = entry.unverified_unit;
///     let verified = entry.verify(&ring)?;
///     assert_eq!((verified.job(), verified.unit()), (entry.unverified_job, claimed));
/// }
/// # Ok::<(), Box<dyn std::error::Error>>(())
/// ```
///
/// Without a ring there is no verified unit:
///
/// ```compile_fail,E0599
/// # use snoekeldraf::ShiftFile;
/// # let bytes = std::fs::read("../../samples/day.shift").unwrap();
/// let file = ShiftFile::check(&bytes).unwrap();
/// let unit = file.unverified_entry(4103).unwrap().unit();
/// ```
///
/// And no job, whichever way the entry came:
///
/// ```compile_fail,E0609
/// # use snoekeldraf::ShiftFile;
/// # let bytes = std::fs::read("../../samples/day.shift").unwrap();
/// let jobs: Vec<u32> = ShiftFile::check(&bytes).unwrap().entries().map(|entry| entry.job).collect();
/// ```
#[derive(Clone, Copy, PartialEq, Eq, Debug)]
#[non_exhaustive]
pub struct Entry<'a> {
    /// Its row in the table, counted from 0.
    pub row: u32,
    /// The job number in the table. The check found the same in the associated data.
    pub unverified_job: u32,
    /// The station number, 0 in edition 1. No tag covers it: it is never verified.
    pub unverified_station: u32,
    /// The suite.
    pub suite: Suite,
    /// Which key of the ring, 0 to 15.
    pub key_number: u8,
    /// The nonce, as long as the suite requires.
    pub nonce: &'a [u8],
    /// The associated data: job number (4 bytes), unit (1 byte), and what else there is.
    pub unverified_ad: &'a [u8],
    /// The unit that the associated data claims. To act on a unit, use [`Verified::unit`].
    pub unverified_unit: Unit,
    /// The ciphertext, as long as the message.
    pub text: &'a [u8],
    /// The tag.
    pub tag: &'a [u8],
}

impl<'a> Entry<'a> {
    /// Opens the entry with the ring's key, without checking the file again: the message is written to `out`, which is as long
    /// as `text`, and what the associated data says is returned.
    ///
    /// Statuses, in this order: 6 if `out` has another length; 8 if the tag differs. On 8 every byte of `out` is 0; 6 leaves it
    /// unchanged.
    ///
    /// ```
    /// use snoekeldraf::{Ring, ShiftFile};
    ///
    /// let ring = Ring::try_from(&std::fs::read("../../samples/ring.keys")?[..])?;
    /// let bytes = std::fs::read("../../samples/day.shift")?;
    /// for entry in ShiftFile::check(&bytes)?.entries() {
    ///     let mut message = vec![0; entry.text.len()];
    ///     let verified = entry.open(&ring, &mut message)?;
    ///     println!("{} in {}: {}", verified.job(), verified.unit(), String::from_utf8_lossy(&message));
    /// }
    /// # Ok::<(), Box<dyn std::error::Error>>(())
    /// ```
    pub fn open(&self, ring: &Ring, out: &mut [u8]) -> Result<Verified<'a>, Refused> {
        let key = ring.key(self.key_number).ok_or(Refused::of(Reason::RowSuite))?;
        open(self.suite, key, self.sealed(), out)?;
        Ok(self.compared())
    }

    /// Compares the entry's tag under the ring's key, without checking the file again and without writing the message
    /// anywhere; returns what the associated data says. Status 8 if the tag differs.
    ///
    /// ```
    /// use snoekeldraf::{Reason, Ring, ShiftFile};
    ///
    /// let bytes = std::fs::read("../../samples/day.shift")?;
    /// let entry = ShiftFile::check(&bytes)?.unverified_entry(4103)?;
    /// assert_eq!(entry.verify(&Ring::from([7; 256])).unwrap_err().reason, Reason::TagDiffers);
    /// # Ok::<(), Box<dyn std::error::Error>>(())
    /// ```
    pub fn verify(&self, ring: &Ring) -> Result<Verified<'a>, Refused> {
        let key = ring.key(self.key_number).ok_or(Refused::of(Reason::RowSuite))?;
        verify(self.suite, key, self.sealed())?;
        Ok(self.compared())
    }

    /// As [`open`](Entry::open); returns the message too.
    ///
    /// ```
    /// use snoekeldraf::{Ring, ShiftFile, Unit};
    ///
    /// let ring = Ring::try_from(&std::fs::read("../../samples/ring.keys")?[..])?;
    /// let bytes = std::fs::read("../../samples/day.shift")?;
    /// let (verified, message) = ShiftFile::check(&bytes)?.unverified_entry(4103)?.open_vec(&ring)?;
    /// assert_eq!(verified.unit(), Unit::InchPounds);
    /// assert!(message.starts_with(b"gearbox 4103"));
    /// # Ok::<(), Box<dyn std::error::Error>>(())
    /// ```
    #[cfg(feature = "alloc")]
    pub fn open_vec(&self, ring: &Ring) -> Result<(Verified<'a>, Vec<u8>), Refused> {
        let mut out = vec![0; self.text.len()];
        let verified = self.open(ring, &mut out)?;
        Ok((verified, out))
    }

    /// What the entry says, once its tag was compared and was right.
    pub(crate) fn compared(&self) -> Verified<'a> {
        Verified { ad: self.unverified_ad, unit: self.unverified_unit }
    }

    fn sealed(&self) -> Sealed<'a> {
        Sealed { nonce: self.nonce, ad: self.unverified_ad, text: self.text, tag: self.tag }
    }
}

/// What the associated data of an entry says, after its tag was compared under a ring's key and was right.
///
/// It is returned by [`ShiftFile::verified`](crate::ShiftFile::verified), [`ShiftFile::open_job`](crate::ShiftFile::open_job),
/// [`Entry::verify`], [`Entry::open`] and [`open_amended`](crate::open_amended) alone.
///
/// ```
/// use snoekeldraf::{Ring, ShiftFile, Unit};
///
/// let ring = Ring::try_from(&std::fs::read("../../samples/ring.keys")?[..])?;
/// let bytes = std::fs::read("../../samples/day.shift")?;
/// let verified = ShiftFile::check(&bytes)?.verified(&ring, 4103)?;
/// assert_eq!((verified.job(), verified.unit()), (4103, Unit::InchPounds));
/// # Ok::<(), Box<dyn std::error::Error>>(())
/// ```
///
/// It cannot be made of anything else:
///
/// ```compile_fail,E0451
/// # use snoekeldraf::Verified;
/// let verified = Verified { ad: &[7, 0, 0, 0, 1], unit: snoekeldraf::Unit::NewtonMetres };
/// ```
#[derive(Clone, Copy, PartialEq, Eq, Debug)]
pub struct Verified<'a> {
    /// At least five bytes: the check of the file said so.
    ad: &'a [u8],
    unit: Unit,
}

impl<'a> Verified<'a> {
    /// Associated data of a checked file whose tag was compared and was right; status 30 if byte 4 is no unit.
    pub(crate) fn compared(ad: &'a [u8]) -> Result<Verified<'a>, Refused> {
        Ok(Verified { ad, unit: Unit::try_from(ad[4])? })
    }

    /// The job number.
    ///
    /// ```
    /// # let ring = snoekeldraf::Ring::try_from(&std::fs::read("../../samples/ring.keys")?[..])?;
    /// # let bytes = std::fs::read("../../samples/day.shift")?;
    /// # let file = snoekeldraf::ShiftFile::check(&bytes)?;
    /// assert_eq!(file.verified(&ring, 4110)?.job(), 4110);
    /// # Ok::<(), Box<dyn std::error::Error>>(())
    /// ```
    pub fn job(&self) -> u32 {
        u32::from_le_bytes([self.ad[0], self.ad[1], self.ad[2], self.ad[3]])
    }

    /// The unit of the torques in the message.
    ///
    /// ```
    /// # let ring = snoekeldraf::Ring::try_from(&std::fs::read("../../samples/ring.keys")?[..])?;
    /// # let bytes = std::fs::read("../../samples/day.shift")?;
    /// # let file = snoekeldraf::ShiftFile::check(&bytes)?;
    /// assert_eq!(file.verified(&ring, 4110)?.unit().to_string(), "newton-metres");
    /// # Ok::<(), Box<dyn std::error::Error>>(())
    /// ```
    pub fn unit(&self) -> Unit {
        self.unit
    }

    /// What follows job number and unit.
    ///
    /// ```
    /// # let ring = snoekeldraf::Ring::try_from(&std::fs::read("../../samples/ring.keys")?[..])?;
    /// # let bytes = std::fs::read("../../samples/day.shift")?;
    /// # let file = snoekeldraf::ShiftFile::check(&bytes)?;
    /// assert_eq!(file.verified(&ring, 4110)?.data(), b"");
    /// # Ok::<(), Box<dyn std::error::Error>>(())
    /// ```
    pub fn data(&self) -> &'a [u8] {
        &self.ad[5..]
    }

    /// The whole associated data: job number, unit, data.
    ///
    /// ```
    /// # let ring = snoekeldraf::Ring::try_from(&std::fs::read("../../samples/ring.keys")?[..])?;
    /// # let bytes = std::fs::read("../../samples/day.shift")?;
    /// # let file = snoekeldraf::ShiftFile::check(&bytes)?;
    /// assert_eq!(file.verified(&ring, 4110)?.ad(), [0x0e, 0x10, 0, 0, 1]);
    /// # Ok::<(), Box<dyn std::error::Error>>(())
    /// ```
    pub fn ad(&self) -> &'a [u8] {
        self.ad
    }
}
