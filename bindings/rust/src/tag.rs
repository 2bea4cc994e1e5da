//! Tags.

use crate::{Reason, Refused, Suite};
use core::fmt::{Debug, Formatter, Result as Written};

/// The tag of a sealed record: 16 bytes, or 8 if the suite's block has 8.
///
/// `==` looks at every byte whatever it finds. To check a record, do not compare tags: [`open`](crate::open) and
/// [`verify`](crate::verify) do.
///
/// ```
/// use snoekeldraf::{seal, Key, Nonce, Record, Suite, Tag};
///
/// let record = Record { ad: &[7, 0, 0, 0, 1], text: b"" };
/// let tag = seal(Suite::Speck64, &Key::from([7; 16]), Nonce::assume_fresh(&[1; 15])?, record, &mut [])?;
/// let sent: Vec<u8> = tag.as_bytes().to_vec();
/// assert_eq!(sent.len(), 8);
/// assert!(Tag::try_from(&sent[..])? == tag);
/// # Ok::<(), snoekeldraf::Refused>(())
/// ```
#[derive(Clone, Copy)]
pub struct Tag {
    bytes: [u8; 16],
    len: usize,
}

impl Tag {
    /// Zeros, to be overwritten.
    pub(crate) fn unwritten(suite: Suite) -> Tag {
        Tag { bytes: [0; 16], len: suite.tag_size() }
    }

    pub(crate) fn as_mut_bytes(&mut self) -> &mut [u8] {
        &mut self.bytes[..self.len]
    }

    /// The tag's bytes, to be sent or stored. Slices are not compared in constant time; tags are.
    ///
    /// ```
    /// assert_eq!(snoekeldraf::Tag::try_from(&[5; 8][..])?.as_bytes(), [5; 8]);
    /// # Ok::<(), snoekeldraf::Refused>(())
    /// ```
    pub fn as_bytes(&self) -> &[u8] {
        &self.bytes[..self.len]
    }
}

impl TryFrom<&[u8]> for Tag {
    type Error = Refused;

    /// Status 7 if there are not 8 or 16 bytes.
    fn try_from(given: &[u8]) -> Result<Tag, Refused> {
        if !matches!(given.len(), 8 | 16) {
            return Err(Refused::of(Reason::TagLength));
        }
        let mut bytes = [0; 16];
        bytes[..given.len()].copy_from_slice(given);
        Ok(Tag { bytes, len: given.len() })
    }
}

impl PartialEq for Tag {
    /// Takes the same time for all tags of a length, as far as the compiler keeps to what is written.
    fn eq(&self, other: &Tag) -> bool {
        let differing = self.bytes.iter().zip(&other.bytes).fold(0, |bits, (a, b)| bits | (a ^ b));
        self.len == other.len && core::hint::black_box(differing) == 0
    }
}

impl Eq for Tag {}

impl Debug for Tag {
    fn fmt(&self, f: &mut Formatter) -> Written {
        f.write_str("Tag(")?;
        for byte in self.as_bytes() {
            write!(f, "{byte:02x}")?;
        }
        f.write_str(")")
    }
}
