//! Nonces.

use crate::{Reason, Refused};
use core::fmt::{Debug, Formatter, Result as Written};

/// A nonce for one record: 15 or 16 bytes, as the suite requires ([`Suite::nonce_size`](crate::Suite::nonce_size)).
///
/// Two records sealed with one key and one nonce betray both messages and let anyone forge records. So a nonce can be neither
/// copied nor cloned, and sealing and the start of a session consume it. It comes from a [`NonceCounter`], or from
/// [`assume_fresh`](Nonce::assume_fresh). To open a record, its nonce is passed as bytes.
///
/// ```
/// use snoekeldraf::{seal_in_place, Key, NonceCounter, Suite};
///
/// let mut counter = NonceCounter::new(b"wrench7")?;
/// let nonce = counter.take().ok_or("every nonce of this prefix is used")?;
/// let sent = nonce.as_bytes().to_vec(); // the receiver needs it
/// let mut text = *b"torque 48.5";
/// let tag = seal_in_place(Suite::Speck64, &Key::from([7; 16]), nonce, &[7, 0, 0, 0, 1], &mut text)?;
/// # assert_eq!(sent.len(), 15);
/// # Ok::<(), Box<dyn std::error::Error>>(())
/// ```
///
/// A second use does not compile:
///
/// ```compile_fail,E0382
/// # use snoekeldraf::{seal_in_place, Key, Nonce, Suite};
/// # let (key, ad) = (Key::from([7; 16]), [7, 0, 0, 0, 1]);
/// let nonce = Nonce::assume_fresh(&[1; 15]).unwrap();
/// seal_in_place(Suite::Speck64, &key, nonce, &ad, &mut [1; 4]);
/// seal_in_place(Suite::Speck64, &key, nonce, &ad, &mut [2; 4]);
/// ```
///
/// ```compile_fail,E0599
/// # use snoekeldraf::Nonce;
/// let nonce = Nonce::assume_fresh(&[1; 15]).unwrap();
/// let again = nonce.clone();
/// ```
#[must_use = "a nonce that is dropped is lost"]
pub struct Nonce(Bytes);

impl Nonce {
    /// Takes bytes as a nonce that was never used with the key that it will be used with, and never will be again. The caller
    /// answers for that. Status 3 if there are not 15 or 16 bytes.
    ///
    /// ```
    /// use snoekeldraf::Nonce;
    ///
    /// let nonce = Nonce::assume_fresh(&[1; 16])?;
    /// assert_eq!(nonce.as_bytes(), [1; 16]);
    /// assert_eq!(Nonce::assume_fresh(&[1; 12]).unwrap_err().number(), 3);
    /// # Ok::<(), snoekeldraf::Refused>(())
    /// ```
    pub fn assume_fresh(bytes: &[u8]) -> Result<Nonce, Refused> {
        Bytes::try_from(bytes).map(Nonce)
    }

    /// The bytes. A nonce is not secret: whoever opens the record needs it.
    ///
    /// ```
    /// use snoekeldraf::NonceCounter;
    ///
    /// let nonce = NonceCounter::new(b"wrench7")?.take().unwrap();
    /// assert_eq!(nonce.as_bytes(), b"wrench7\0\0\0\0\0\0\0\0");
    /// # Ok::<(), snoekeldraf::Refused>(())
    /// ```
    pub fn as_bytes(&self) -> &[u8] {
        self.0.as_slice()
    }
}

impl Debug for Nonce {
    fn fmt(&self, f: &mut Formatter) -> Written {
        write!(f, "Nonce({:02x?})", self.as_bytes())
    }
}

/// 15 or 16 bytes.
struct Bytes {
    bytes: [u8; 16],
    len: usize,
}

impl Bytes {
    fn as_slice(&self) -> &[u8] {
        &self.bytes[..self.len]
    }
}

impl TryFrom<&[u8]> for Bytes {
    type Error = Refused;

    fn try_from(given: &[u8]) -> Result<Bytes, Refused> {
        if !matches!(given.len(), 15 | 16) {
            return Err(Refused::of(Reason::NonceLength));
        }
        let mut bytes = [0; 16];
        bytes[..given.len()].copy_from_slice(given);
        Ok(Bytes { bytes, len: given.len() })
    }
}

/// How many bytes of a nonce are the count.
const COUNT_SIZE: usize = 8;

/// Makes nonces: a prefix, and a 64-bit count that rises by one from nonce to nonce (little-endian, after the prefix).
///
/// A prefix belongs to one counter: two wrenches, or two programs, that seal with one key need two prefixes. It has 8
/// bytes for suites with 16-byte nonces, 7 for the others. A counter ends after 2^64 - 1 nonces; it does not wrap.
///
/// # Across restarts
///
/// Store [`state`](NonceCounter::state) before a nonce is used, and [`resume`](NonceCounter::resume) from it. A crash then
/// loses nonces and repeats none. [`take_stored`](NonceCounter::take_stored) keeps that order. Where power can fail, what
/// stores the state also syncs it to the disk.
///
/// ```
/// use snoekeldraf::NonceCounter;
///
/// # let path = std::env::temp_dir().join(format!("nonces-{}", std::process::id()));
/// // Once, when the wrench is set up. After a state was lost: with another prefix.
/// std::fs::write(&path, NonceCounter::new(b"wrench7")?.state())?;
///
/// // At every start. A state that cannot be read is an error and never a new beginning.
/// let mut counter = NonceCounter::resume(&std::fs::read(&path)?)?;
/// let nonce = counter.take_stored(|state| std::fs::write(&path, state))?.ok_or("the prefix is used up")?;
///
/// let after_a_crash = NonceCounter::resume(&std::fs::read(&path)?)?.take().unwrap();
/// assert_ne!(after_a_crash.as_bytes(), nonce.as_bytes());
/// # std::fs::remove_file(&path)?;
/// # Ok::<(), Box<dyn std::error::Error>>(())
/// ```
///
/// A counter can be neither copied nor cloned.
pub struct NonceCounter(Bytes);

impl NonceCounter {
    /// A counter that starts at 0. Status 3 if the prefix does not have 7 or 8 bytes.
    ///
    /// Never start a second counter with a prefix that was used with the same key.
    ///
    /// ```
    /// use snoekeldraf::{NonceCounter, Suite};
    ///
    /// assert_eq!(NonceCounter::new(&[9; 8])?.state().len(), Suite::Aes128.nonce_size());
    /// assert_eq!(NonceCounter::new(&[9; 7])?.state().len(), Suite::Speck64.nonce_size());
    /// assert_eq!(NonceCounter::new(b"station 12").unwrap_err().number(), 3);
    /// # Ok::<(), snoekeldraf::Refused>(())
    /// ```
    pub fn new(prefix: &[u8]) -> Result<NonceCounter, Refused> {
        if !matches!(prefix.len(), 7 | 8) {
            return Err(Refused::of(Reason::NonceLength));
        }
        let mut bytes = [0; 16];
        bytes[..prefix.len()].copy_from_slice(prefix);
        Ok(NonceCounter(Bytes { bytes, len: prefix.len() + COUNT_SIZE }))
    }

    /// Continues from a stored state. Status 3 if it does not have 15 or 16 bytes.
    ///
    /// ```
    /// use snoekeldraf::NonceCounter;
    ///
    /// let mut counter = NonceCounter::resume(b"wrench7\x05\0\0\0\0\0\0\0")?;
    /// assert_eq!(counter.take().unwrap().as_bytes(), b"wrench7\x05\0\0\0\0\0\0\0");
    /// # Ok::<(), snoekeldraf::Refused>(())
    /// ```
    pub fn resume(state: &[u8]) -> Result<NonceCounter, Refused> {
        Bytes::try_from(state).map(NonceCounter)
    }

    /// The state to be stored: the bytes of the nonce that comes next.
    ///
    /// ```
    /// use snoekeldraf::NonceCounter;
    ///
    /// let mut counter = NonceCounter::new(b"wrench7")?;
    /// let nonce = counter.take().unwrap();
    /// assert_eq!(counter.state(), b"wrench7\x01\0\0\0\0\0\0\0"); // store this before `nonce` is used
    /// # let _ = nonce;
    /// # Ok::<(), snoekeldraf::Refused>(())
    /// ```
    pub fn state(&self) -> &[u8] {
        self.0.as_slice()
    }

    /// How many nonces are left.
    ///
    /// ```
    /// use snoekeldraf::NonceCounter;
    ///
    /// assert_eq!(NonceCounter::new(b"wrench7")?.remaining(), u64::MAX);
    /// # Ok::<(), snoekeldraf::Refused>(())
    /// ```
    pub fn remaining(&self) -> u64 {
        u64::MAX - self.count()
    }

    /// The next nonce; `None` once the counter has ended. Store [`state`](NonceCounter::state) before the nonce is used.
    ///
    /// ```
    /// use snoekeldraf::NonceCounter;
    ///
    /// let mut last = NonceCounter::resume(b"wrench7\xfe\xff\xff\xff\xff\xff\xff\xff")?;
    /// assert_eq!(last.remaining(), 1);
    /// assert!(last.take().is_some());
    /// assert!(last.take().is_none());
    /// # Ok::<(), snoekeldraf::Refused>(())
    /// ```
    pub fn take(&mut self) -> Option<Nonce> {
        let next = self.count().checked_add(1)?;
        let nonce = Nonce(Bytes { ..self.0 });
        self.0.bytes[self.0.len - COUNT_SIZE..self.0.len].copy_from_slice(&next.to_le_bytes());
        Some(nonce)
    }

    /// The next nonce, given out only after `store` has stored the state that follows it. If `store` fails, the nonce is lost
    /// and the next one can be taken.
    ///
    /// ```
    /// use snoekeldraf::NonceCounter;
    ///
    /// let (mut counter, mut stored) = (NonceCounter::new(b"wrench7")?, vec![]);
    /// let nonce = counter.take_stored(|state| Ok::<(), std::io::Error>(stored = state.to_vec()));
    /// assert_eq!(nonce.unwrap().unwrap().as_bytes(), b"wrench7\0\0\0\0\0\0\0\0");
    /// assert_eq!(stored, b"wrench7\x01\0\0\0\0\0\0\0");
    /// assert!(counter.take_stored(|_| Err("no space left")).is_err());
    /// # Ok::<(), snoekeldraf::Refused>(())
    /// ```
    pub fn take_stored<E>(&mut self, store: impl FnOnce(&[u8]) -> Result<(), E>) -> Result<Option<Nonce>, E> {
        let Some(nonce) = self.take() else { return Ok(None) };
        store(self.state())?;
        Ok(Some(nonce))
    }

    fn count(&self) -> u64 {
        let mut count = [0; COUNT_SIZE];
        count.copy_from_slice(&self.0.as_slice()[self.0.len - COUNT_SIZE..]);
        u64::from_le_bytes(count)
    }
}

impl Debug for NonceCounter {
    fn fmt(&self, f: &mut Formatter) -> Written {
        write!(f, "NonceCounter({:02x?})", self.state())
    }
}
