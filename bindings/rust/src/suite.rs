//! The suites.

use crate::{Reason, Refused};
use core::fmt::{Display, Formatter, Result as Written};

/// A cipher, a version of COMET and their sizes.
///
/// | | cipher | COMET | block and tag | nonce |
/// |---|---|---|---|---|
/// | 1 | AES-128 | version 1 | 16 bytes | 16 |
/// | 2 | CHAM-128/128 | version 1 | 16 | 16 |
/// | 3 | Speck-64/128 | version 1 | 8 | 15 |
/// | 4 | CHAM-64/128 | version 1 | 8 | 15 |
/// | 5 | AES-128 | version 2 | 16 | 16 |
/// | 6 | Speck-64/128 | version 2 | 8 | 15 |
///
/// Suite 4 is retired: it is opened and no longer sealed (status 10). Suites 1 and 5 index lookup tables by secret bytes: they
/// are not constant-time and can leak through the cache.
///
/// ```
/// use snoekeldraf::Suite;
///
/// assert_eq!(Suite::try_from(3), Ok(Suite::Speck64));
/// assert_eq!(Suite::Speck64.number(), 3);
/// assert_eq!(Suite::try_from(7).unwrap_err().number(), 1);
/// assert_eq!(Suite::Speck64V2.to_string(), "Speck-64/128, COMET version 2");
/// assert!(Suite::Aes128 < Suite::Speck64); // by number
/// ```
#[derive(Clone, Copy, PartialEq, Eq, PartialOrd, Ord, Hash, Debug)]
#[repr(u8)]
pub enum Suite {
    /// Suite 1.
    Aes128 = 1,
    /// Suite 2.
    Cham128 = 2,
    /// Suite 3.
    Speck64 = 3,
    /// Suite 4, retired: it is opened and no longer sealed.
    Cham64 = 4,
    /// Suite 5.
    Aes128V2 = 5,
    /// Suite 6.
    Speck64V2 = 6,
}

impl Suite {
    /// All six, in the order of their numbers.
    ///
    /// ```
    /// use snoekeldraf::Suite;
    ///
    /// assert!(Suite::ALL.iter().all(|suite| Suite::try_from(suite.number()) == Ok(*suite)));
    /// ```
    pub const ALL: [Suite; 6] =
        [Suite::Aes128, Suite::Cham128, Suite::Speck64, Suite::Cham64, Suite::Aes128V2, Suite::Speck64V2];

    /// The number of the documents, 1 to 6.
    ///
    /// ```
    /// use snoekeldraf::Suite;
    ///
    /// assert_eq!(Suite::ALL.map(Suite::number), [1, 2, 3, 4, 5, 6]);
    /// ```
    pub const fn number(self) -> u8 {
        self as u8
    }

    /// Bytes of a block: 16, or 8.
    ///
    /// ```
    /// use snoekeldraf::Suite;
    ///
    /// assert_eq!(Suite::ALL.map(Suite::block_size), [16, 16, 8, 8, 16, 8]);
    /// ```
    pub const fn block_size(self) -> usize {
        match self {
            Suite::Aes128 | Suite::Cham128 | Suite::Aes128V2 => 16,
            Suite::Speck64 | Suite::Cham64 | Suite::Speck64V2 => 8,
        }
    }

    /// Bytes of a tag, as many as of a block.
    ///
    /// ```
    /// use snoekeldraf::Suite;
    ///
    /// assert_eq!(Suite::ALL.map(Suite::tag_size), [16, 16, 8, 8, 16, 8]);
    /// ```
    pub const fn tag_size(self) -> usize {
        self.block_size()
    }

    /// Bytes of a nonce: 16, or 15 where the block is small.
    ///
    /// ```
    /// use snoekeldraf::Suite;
    ///
    /// assert_eq!(Suite::ALL.map(Suite::nonce_size), [16, 16, 15, 15, 16, 15]);
    /// ```
    pub const fn nonce_size(self) -> usize {
        match self.block_size() {
            16 => 16,
            _ => 15,
        }
    }

    /// Whether the suite is only opened.
    ///
    /// ```
    /// use snoekeldraf::Suite;
    ///
    /// let retired: Vec<Suite> = Suite::ALL.into_iter().filter(|suite| suite.is_retired()).collect();
    /// assert_eq!(retired, [Suite::Cham64]);
    /// ```
    pub const fn is_retired(self) -> bool {
        matches!(self, Suite::Cham64)
    }
}

impl TryFrom<u8> for Suite {
    type Error = Refused;

    /// Status 1 if the suite is not 1 to 6.
    fn try_from(number: u8) -> Result<Suite, Refused> {
        Suite::ALL.into_iter().find(|suite| suite.number() == number).ok_or(Refused::of(Reason::Suite))
    }
}

impl From<Suite> for u8 {
    fn from(suite: Suite) -> u8 {
        suite.number()
    }
}

impl Display for Suite {
    fn fmt(&self, f: &mut Formatter) -> Written {
        f.pad(match self {
            Suite::Aes128 => "AES-128, COMET version 1",
            Suite::Cham128 => "CHAM-128/128, COMET version 1",
            Suite::Speck64 => "Speck-64/128, COMET version 1",
            Suite::Cham64 => "CHAM-64/128, COMET version 1",
            Suite::Aes128V2 => "AES-128, COMET version 2",
            Suite::Speck64V2 => "Speck-64/128, COMET version 2",
        })
    }
}
