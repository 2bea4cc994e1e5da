//! The writer of shift files, and the pass that reseals suite 4.

use crate::refused::worked;
use crate::secret::forgetting;
use crate::{raw, Refused, Ring};
#[cfg(feature = "alloc")]
use alloc::{vec, vec::Vec};

/// A checked draft, a day before it is sealed: a shift file with edition 0, plaintext where the ciphertext goes, and zero
/// tags. It borrows the caller's bytes; [`check`](Draft::check) alone makes one.
///
/// ```
/// use snoekeldraf::{unseal, Draft, Ring, ShiftFile};
///
/// let ring = Ring::try_from(&std::fs::read("../../samples/ring.keys")?[..])?;
/// let bytes = std::fs::read("../../samples/day.draft")?;
/// let mut file = vec![0; bytes.len()];
/// Draft::check(&bytes)?.seal(&ring, &mut file)?;
/// assert!(ShiftFile::check(&file).is_ok());
///
/// let mut back = vec![0; file.len()];
/// unseal(&file, &ring, &mut back)?;
/// assert_eq!(back, bytes);
/// # Ok::<(), Box<dyn std::error::Error>>(())
/// ```
#[derive(Clone, Copy, PartialEq, Eq, Debug)]
pub struct Draft<'a> {
    bytes: &'a [u8],
}

impl<'a> Draft<'a> {
    /// Checks everything that sealing requires of a draft.
    ///
    /// Statuses, in this order: 20 to 31 and 34 as [`ShiftFile::check`](crate::ShiftFile::check), except that 21 means
    /// that the edition is not 0; 33 with the first row whose tag has a byte that is not zero; 10 with the first row of suite 4.
    ///
    /// ```
    /// use snoekeldraf::{Draft, Reason};
    ///
    /// let mut bytes = std::fs::read("../../samples/day.draft").unwrap();
    /// assert!(Draft::check(&bytes).is_ok());
    /// *bytes.last_mut().unwrap() = 1; // in the last tag
    /// let refused = Draft::check(&bytes).unwrap_err();
    /// assert_eq!((refused.reason, refused.row), (Reason::RowTagSet, Some(6)));
    /// ```
    pub fn check(bytes: &'a [u8]) -> Result<Draft<'a>, Refused> {
        // Number 2 comes right after the draft's own numbers: with an empty ring it means that none of them applies.
        match raw::seal_file(bytes, &[], &mut []) {
            (2, _) => Ok(Draft { bytes }),
            answer => Err(worked(answer).expect_err("no file is sealed without a ring")),
        }
    }

    /// The caller's bytes.
    ///
    /// ```
    /// use snoekeldraf::Draft;
    ///
    /// let empty = [0, 0, 0, 0, 8, 0, 0, 0];
    /// assert_eq!(Draft::check(&empty)?.bytes(), empty);
    /// # Ok::<(), snoekeldraf::Refused>(())
    /// ```
    pub fn bytes(self) -> &'a [u8] {
        self.bytes
    }

    /// Seals the draft into `out`, which is as long as the draft. The edition becomes 1, ciphertext and tags are written, and
    /// every other byte is the draft's.
    ///
    /// Status 6 if `out` has another length; it is then unchanged.
    ///
    /// ```
    /// use snoekeldraf::{Draft, Ring};
    ///
    /// let empty = [0, 0, 0, 0, 8, 0, 0, 0];
    /// let (draft, ring) = (Draft::check(&empty)?, Ring::from([7; 256]));
    /// let mut file = [0xaa; 8];
    /// assert_eq!(draft.seal(&ring, &mut file[1..]).unwrap_err().number(), 6);
    /// draft.seal(&ring, &mut file)?;
    /// assert_eq!(file, [1, 0, 0, 0, 8, 0, 0, 0]);
    /// # Ok::<(), snoekeldraf::Refused>(())
    /// ```
    pub fn seal(self, ring: &Ring, out: &mut [u8]) -> Result<(), Refused> {
        worked(forgetting(|| raw::seal_file(self.bytes, ring.bytes(), out)))
    }

    /// As [`seal`](Draft::seal); returns the sealed file.
    ///
    /// ```
    /// use snoekeldraf::{unseal_vec, Draft, Ring};
    ///
    /// let ring = Ring::try_from(&std::fs::read("../../samples/ring.keys")?[..])?;
    /// let bytes = std::fs::read("../../samples/day.draft")?;
    /// let file = Draft::check(&bytes)?.seal_vec(&ring)?;
    /// assert_eq!(unseal_vec(&file, &ring)?, bytes);
    /// # Ok::<(), Box<dyn std::error::Error>>(())
    /// ```
    #[cfg(feature = "alloc")]
    pub fn seal_vec(self, ring: &Ring) -> Result<Vec<u8>, Refused> {
        let mut out = vec![0; self.bytes.len()];
        self.seal(ring, &mut out)?;
        Ok(out)
    }
}

/// Writes the draft of a sealed file to `out`, which is as long as the file. If no entry has suite 4, sealing the draft with
/// the same ring gives the file.
///
/// Statuses, in this order: 20 to 31 and 34 as [`ShiftFile::check`](crate::ShiftFile::check), except that 21 means that
/// the edition is not 1; 6 if `out` has another length; 8 with the first row whose tag differs. On 8 every byte of `out` is
/// 0; every other refusal leaves it unchanged.
///
/// ```
/// use snoekeldraf::{unseal, Reason, Ring};
///
/// let file = std::fs::read("../../samples/day.shift").unwrap();
/// let mut draft = vec![0xaa; file.len()];
/// let refused = unseal(&file, &Ring::from([7; 256]), &mut draft).unwrap_err();
/// assert_eq!((refused.reason, refused.row), (Reason::TagDiffers, Some(0)));
/// assert!(draft.iter().all(|byte| *byte == 0));
/// ```
pub fn unseal(file: &[u8], ring: &Ring, out: &mut [u8]) -> Result<(), Refused> {
    worked(forgetting(|| raw::unseal_file(file, ring.bytes(), out)))
}

/// Seals the suite 4 entries of a file again as suite 3, into `out`, which is as long as the file: the same key number,
/// nonce, associated data and message. Every other byte is kept. The other entries are copied without looking at
/// their tags.
///
/// Statuses, in this order: 20 to 31 and 34 as [`ShiftFile::check`](crate::ShiftFile::check), except that 21 means that
/// the edition is not 1; 29 also with the lowest row that would then repeat the suite, key number and nonce of an earlier one;
/// 6 if `out` has another length; 8 with the first row of suite 4 whose tag differs. On 8 every byte of `out` is 0; every
/// other refusal leaves it unchanged.
///
/// ```
/// use snoekeldraf::{reseal, Ring, ShiftFile, Suite};
///
/// let ring = Ring::try_from(&std::fs::read("../../samples/ring.keys")?[..])?;
/// let old = std::fs::read("../../samples/day.shift")?;
/// let mut new = vec![0; old.len()];
/// reseal(&old, &ring, &mut new)?;
/// let [old, new] = [&old, &new].map(|bytes| ShiftFile::check(bytes).unwrap().unverified_entry(4105).unwrap().suite);
/// assert_eq!([old, new], [Suite::Cham64, Suite::Speck64]);
/// # Ok::<(), Box<dyn std::error::Error>>(())
/// ```
pub fn reseal(file: &[u8], ring: &Ring, out: &mut [u8]) -> Result<(), Refused> {
    worked(forgetting(|| raw::reseal(file, ring.bytes(), out)))
}

/// As [`unseal`]; returns the draft.
///
/// ```
/// use snoekeldraf::{unseal_vec, Draft, Ring};
///
/// let ring = Ring::from([7; 256]);
/// assert_eq!(unseal_vec(&[1, 0, 0, 0, 8, 0, 0, 0], &ring)?, [0, 0, 0, 0, 8, 0, 0, 0]);
/// # Ok::<(), snoekeldraf::Refused>(())
/// ```
#[cfg(feature = "alloc")]
pub fn unseal_vec(file: &[u8], ring: &Ring) -> Result<Vec<u8>, Refused> {
    let mut out = vec![0; file.len()];
    unseal(file, ring, &mut out)?;
    Ok(out)
}

/// As [`reseal`]; returns the resealed file.
///
/// ```
/// use snoekeldraf::{reseal_vec, Ring};
///
/// let ring = Ring::try_from(&std::fs::read("../../samples/ring.keys")?[..])?;
/// let new = reseal_vec(&std::fs::read("../../samples/day.shift")?, &ring)?;
/// assert_eq!(reseal_vec(&new, &ring)?, new); // nothing of suite 4 is left
/// # Ok::<(), Box<dyn std::error::Error>>(())
/// ```
#[cfg(feature = "alloc")]
pub fn reseal_vec(file: &[u8], ring: &Ring) -> Result<Vec<u8>, Refused> {
    let mut out = vec![0; file.len()];
    reseal(file, ring, &mut out)?;
    Ok(out)
}
