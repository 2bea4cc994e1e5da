//! Keys and rings of keys.

use crate::secret::{bytes_of, wipe};
use crate::{Reason, Refused};
use core::fmt::{Debug, Formatter, Result as Written};

/// A key: 16 bytes, under every suite.
///
/// A key is overwritten with zeros when it is dropped. `Debug` does not show it, and two keys cannot be compared. Moving a
/// value copies it in Rust: keep a long-lived key in a `Box`, or borrow it, so that no copy is left where it was.
///
/// ```
/// use snoekeldraf::Key;
///
/// let key = Key::from([7; 16]);
/// assert_eq!(format!("{key:?}"), "Key(..)");
/// assert_eq!(Key::try_from(&[7; 15][..]).unwrap_err().number(), 2);
/// ```
#[derive(Clone)]
#[repr(transparent)]
pub struct Key([u8; 16]);

impl Key {
    pub(crate) fn bytes(&self) -> &[u8] {
        &self.0
    }
}

impl Drop for Key {
    fn drop(&mut self) {
        wipe(&mut self.0);
    }
}

impl From<[u8; 16]> for Key {
    fn from(bytes: [u8; 16]) -> Key {
        Key(bytes)
    }
}

impl TryFrom<&[u8]> for Key {
    type Error = Refused;

    /// Status 2 if there are not 16 bytes.
    fn try_from(bytes: &[u8]) -> Result<Key, Refused> {
        bytes.try_into().map(Key).map_err(|_| Refused::of(Reason::KeyLength))
    }
}

impl Debug for Key {
    fn fmt(&self, f: &mut Formatter) -> Written {
        f.write_str("Key(..)")
    }
}

/// A ring of 16 keys, 256 bytes: key k is bytes 16k to 16k + 15. An entry of a shift file names its key by k.
///
/// A ring is overwritten with zeros when it is dropped, as its [`Key`]s are.
///
/// ```
/// use snoekeldraf::Ring;
///
/// let ring = Ring::try_from(&std::fs::read("../../samples/ring.keys").unwrap()[..])?;
/// assert!(ring.key(15).is_some());
/// assert!(ring.key(16).is_none());
/// assert_eq!(Ring::try_from(&[0; 255][..]).unwrap_err().number(), 2);
/// # Ok::<(), snoekeldraf::Refused>(())
/// ```
#[derive(Clone)]
pub struct Ring([Key; 16]);

impl Ring {
    /// The key with this number, 0 to 15.
    ///
    /// ```
    /// use snoekeldraf::{seal_in_place, Nonce, Ring, Suite};
    ///
    /// let ring = Ring::try_from(&std::fs::read("../../samples/ring.keys")?[..])?;
    /// let key = ring.key(3).ok_or("a key number is 0 to 15")?;
    /// let mut text = *b"48.5";
    /// seal_in_place(Suite::Speck64, key, Nonce::assume_fresh(&[1; 15])?, &[7, 0, 0, 0, 1], &mut text)?;
    /// # Ok::<(), Box<dyn std::error::Error>>(())
    /// ```
    pub fn key(&self, number: u8) -> Option<&Key> {
        self.0.get(usize::from(number))
    }

    pub(crate) fn bytes(&self) -> &[u8] {
        bytes_of(&self.0)
    }
}

impl From<[u8; 256]> for Ring {
    fn from(bytes: [u8; 256]) -> Ring {
        Ring(core::array::from_fn(|k| Key(core::array::from_fn(|i| bytes[16 * k + i]))))
    }
}

impl TryFrom<&[u8]> for Ring {
    type Error = Refused;

    /// Status 2 if there are not 256 bytes.
    fn try_from(bytes: &[u8]) -> Result<Ring, Refused> {
        match bytes.len() {
            256 => Ok(Ring(core::array::from_fn(|k| Key(core::array::from_fn(|i| bytes[16 * k + i]))))),
            _ => Err(Refused::of(Reason::KeyLength)),
        }
    }
}

impl Debug for Ring {
    fn fmt(&self, f: &mut Formatter) -> Written {
        f.write_str("Ring(..)")
    }
}
