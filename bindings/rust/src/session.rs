//! Sealing while measuring.

use crate::refused::done;
use crate::secret::{forgetting, wipe};
use crate::{raw, Key, Nonce, Refused, Suite, Tag};
#[cfg(feature = "alloc")]
use alloc::{vec, vec::Vec};
use core::error::Error;
use core::fmt::{Debug, Display, Formatter, Result as Written};

/// Seals a record while its message is still being measured: a start, the associated data in parts, the message in parts, an
/// end. Whatever the parts, the joined ciphertext and the tag are those of [`seal`](crate::seal) for the joined parts, and
/// [`open`](crate::open) opens them.
///
/// ```
/// use snoekeldraf::{open, Key, Nonce, Sealed, Session, Suite};
///
/// let (key, nonce) = (Key::from([7; 16]), [2; 15]);
/// let mut buffer = [0; 64];
/// let mut text = vec![];
///
/// let mut session = Session::start(Suite::Speck64, &key, Nonce::assume_fresh(&nonce)?)?;
/// session.data(&[7, 0, 0, 0])?;
/// session.data(&[1])?;
/// for measured in ["48.5 ", "48.7 48.4 ", "48.6"] {
///     text.extend_from_slice(session.part(measured.as_bytes(), &mut buffer)?);
/// }
/// let (rest, tag) = session.end(&mut buffer)?;
/// text.extend_from_slice(rest);
///
/// let mut message = [0; 19];
/// let sealed = Sealed { nonce: &nonce, ad: &[7, 0, 0, 0, 1], text: &text, tag: tag.as_bytes() };
/// open(Suite::Speck64, &key, sealed, &mut message)?;
/// assert_eq!(&message, b"48.5 48.7 48.4 48.6");
/// # Ok::<(), snoekeldraf::Refused>(())
/// ```
///
/// A refused call leaves the session unchanged, and it goes on. Going on from one session twice would seal two records with
/// one key and one nonce, so a session cannot be copied, and its end consumes it:
///
/// ```compile_fail,E0599
/// # use snoekeldraf::{Key, Nonce, Session, Suite};
/// # let nonce = Nonce::assume_fresh(&[2; 15]).unwrap();
/// let session = Session::start(Suite::Speck64, &Key::from([7; 16]), nonce).unwrap();
/// let again = session.clone();
/// ```
///
/// ```compile_fail,E0382
/// # use snoekeldraf::{Key, Nonce, Session, Suite};
/// # let nonce = Nonce::assume_fresh(&[2; 15]).unwrap();
/// # let (mut one, mut two) = ([0; 16], [0; 16]);
/// let mut session = Session::start(Suite::Speck64, &Key::from([7; 16]), nonce).unwrap();
/// session.end(&mut one).unwrap();
/// session.part(b"48.7", &mut two).unwrap();
/// ```
///
/// A session holds key material. It is overwritten with zeros when it is dropped, and `Debug` does not show it. A move
/// copies it: after the function that starts or ends it, [`forget`](crate::forget) overwrites what is left on the stack.
#[must_use = "a session that is dropped seals nothing"]
pub struct Session {
    suite: Suite,
    words: raw::Words,
}

impl Session {
    /// Starts a session.
    ///
    /// Statuses, in this order: 10 if the suite is 4; 3 if the nonce does not have the suite's length.
    ///
    /// ```
    /// use snoekeldraf::{Key, Nonce, Session, Suite};
    ///
    /// let nonce = Nonce::assume_fresh(&[2; 15])?;
    /// assert_eq!(Session::start(Suite::Aes128, &Key::from([7; 16]), nonce).unwrap_err().number(), 3);
    /// # Ok::<(), snoekeldraf::Refused>(())
    /// ```
    pub fn start(suite: Suite, key: &Key, nonce: Nonce) -> Result<Session, Refused> {
        let mut session = Session { suite, words: [0; 9] };
        let words = &mut session.words;
        done(forgetting(|| raw::session_start(words, suite.number(), key.bytes(), nonce.as_bytes())))?;
        Ok(session)
    }

    /// Adds a part of the associated data, of any length, until the first byte of the message.
    ///
    /// Statuses, in this order: 9 if a byte of the message has come, for an empty part too; 4 if there would be more than
    /// 65,536 bytes in all.
    ///
    /// ```
    /// use snoekeldraf::{Key, Nonce, Reason, Session, Suite};
    ///
    /// let mut session = Session::start(Suite::Aes128, &Key::from([7; 16]), Nonce::assume_fresh(&[2; 16])?)?;
    /// session.data(b"in ")?;
    /// session.data(b"parts")?;
    /// session.part(b"!", &mut [0; 16])?;
    /// assert_eq!(session.data(b"").unwrap_err().reason, Reason::Session);
    /// # Ok::<(), snoekeldraf::Refused>(())
    /// ```
    pub fn data(&mut self, ad: &[u8]) -> Result<(), Refused> {
        done(forgetting(|| raw::session_data(&mut self.words, ad)))
    }

    /// Adds a part of the message, of any length, and returns the ciphertext of the blocks that it completes, a part of `out`.
    /// The bytes after it are unchanged. `out` has [`part_out_len`](Session::part_out_len) bytes or more.
    ///
    /// Statuses, in this order: 5 if there would be more than 65,536 bytes of message in all; 6 if `out` is too short. A
    /// refusal leaves `out` unchanged. An empty part changes nothing and does not begin the message.
    ///
    /// ```
    /// use snoekeldraf::{Key, Nonce, Reason, Session, Suite};
    ///
    /// let mut buffer = [0; 20 + 15];
    /// let mut session = Session::start(Suite::Aes128, &Key::from([7; 16]), Nonce::assume_fresh(&[2; 16])?)?;
    /// let refused = session.part(&[b'm'; 20], &mut buffer[..34]).unwrap_err();
    /// assert_eq!(refused.reason, Reason::OutputLength);
    /// let text = session.part(&[b'm'; 20], &mut buffer)?;
    /// assert_eq!(text.len(), 16); // four bytes wait for their block
    /// # Ok::<(), snoekeldraf::Refused>(())
    /// ```
    pub fn part<'o>(&mut self, msg: &[u8], out: &'o mut [u8]) -> Result<&'o [u8], Refused> {
        let (number, count) = forgetting(|| raw::session_part(&mut self.words, msg, out));
        done(number)?;
        Ok(&out[..count as usize])
    }

    /// Ends the session and returns the rest of the ciphertext, less than a block and a part of `out`, and the tag. `out` has
    /// 16 bytes or more (8 are enough if the block has 8).
    ///
    /// Status 6 if `out` is too short; it is then unchanged, and the session is handed back.
    ///
    /// ```
    /// use snoekeldraf::{Key, Nonce, Session, Suite};
    ///
    /// let mut buffer = [0; 16];
    /// let mut session = Session::start(Suite::Speck64, &Key::from([7; 16]), Nonce::assume_fresh(&[2; 15])?)?;
    /// assert_eq!(session.part(b"torque", &mut buffer)?, []);
    /// let handed_back = session.end(&mut buffer[..7]).unwrap_err();
    /// let (rest, tag) = handed_back.session.end(&mut buffer)?;
    /// assert_eq!((rest.len(), tag.as_bytes().len()), (6, 8));
    /// # Ok::<(), snoekeldraf::Refused>(())
    /// ```
    pub fn end(mut self, out: &mut [u8]) -> Result<(&[u8], Tag), HandedBack> {
        let mut tag = Tag::unwritten(self.suite);
        let (number, count) = forgetting(|| raw::session_end(&mut self.words, out, tag.as_mut_bytes()));
        match done(number) {
            Ok(()) => Ok((&out[..count as usize], tag)),
            Err(refused) => Err(HandedBack { session: self, refused }),
        }
    }

    /// The suite that it was started with.
    ///
    /// ```
    /// use snoekeldraf::{Key, Nonce, Session, Suite};
    ///
    /// let session = Session::start(Suite::Speck64, &Key::from([7; 16]), Nonce::assume_fresh(&[2; 15])?)?;
    /// assert_eq!(session.suite(), Suite::Speck64);
    /// # Ok::<(), snoekeldraf::Refused>(())
    /// ```
    pub fn suite(&self) -> Suite {
        self.suite
    }

    /// How long the output of [`part`](Session::part) has to be for a part of `len` bytes: one block less a byte more.
    ///
    /// ```
    /// use snoekeldraf::{Key, Nonce, Session, Suite};
    ///
    /// let session = Session::start(Suite::Speck64, &Key::from([7; 16]), Nonce::assume_fresh(&[2; 15])?)?;
    /// assert_eq!(session.part_out_len(20), 27);
    /// # Ok::<(), snoekeldraf::Refused>(())
    /// ```
    pub fn part_out_len(&self, len: usize) -> usize {
        len.saturating_add(self.suite.block_size() - 1)
    }

    /// As [`part`](Session::part); the ciphertext is appended to `text`.
    ///
    /// ```
    /// use snoekeldraf::{Key, Nonce, Session, Suite};
    ///
    /// let mut text = vec![];
    /// let mut session = Session::start(Suite::Speck64, &Key::from([7; 16]), Nonce::assume_fresh(&[2; 15])?)?;
    /// session.part_vec(b"torque 48.5", &mut text)?;
    /// session.part_vec(b" 48.7", &mut text)?;
    /// let tag = session.end_vec(&mut text)?;
    /// assert_eq!((text.len(), tag.as_bytes().len()), (16, 8));
    /// # Ok::<(), snoekeldraf::Refused>(())
    /// ```
    #[cfg(feature = "alloc")]
    pub fn part_vec(&mut self, msg: &[u8], text: &mut Vec<u8>) -> Result<(), Refused> {
        let mut buffer = vec![0; self.part_out_len(msg.len())];
        text.extend_from_slice(self.part(msg, &mut buffer)?);
        Ok(())
    }

    /// As [`end`](Session::end); the rest of the ciphertext is appended to `text`.
    ///
    /// ```
    /// use snoekeldraf::{seal_vec, Key, Nonce, Record, Session, Suite};
    ///
    /// let (key, nonce) = (Key::from([7; 16]), [2; 15]);
    /// let mut text = vec![];
    /// let mut session = Session::start(Suite::Speck64, &key, Nonce::assume_fresh(&nonce)?)?;
    /// session.part_vec(b"48.5", &mut text)?;
    /// let tag = session.end_vec(&mut text)?;
    ///
    /// // the same record, sealed at once; with one key and nonce, only one of the two may ever be sent
    /// let record = Record { ad: b"", text: b"48.5" };
    /// assert_eq!((text, tag), seal_vec(Suite::Speck64, &key, Nonce::assume_fresh(&nonce)?, record)?);
    /// # Ok::<(), snoekeldraf::Refused>(())
    /// ```
    #[cfg(feature = "alloc")]
    pub fn end_vec(self, text: &mut Vec<u8>) -> Result<Tag, HandedBack> {
        let mut buffer = [0; 16];
        let (rest, tag) = self.end(&mut buffer)?;
        text.extend_from_slice(rest);
        Ok(tag)
    }
}

impl Drop for Session {
    fn drop(&mut self) {
        wipe(&mut self.words);
    }
}

impl Debug for Session {
    fn fmt(&self, f: &mut Formatter) -> Written {
        write!(f, "Session({:?}, ..)", self.suite)
    }
}

/// A refused end of a session, and the session as it was: it can go on.
///
/// `?` turns it into a [`Refused`]; the session is then dropped.
///
/// ```
/// use snoekeldraf::{Key, Nonce, Session, Suite};
/// use std::error::Error;
///
/// let session = Session::start(Suite::Speck64, &Key::from([7; 16]), Nonce::assume_fresh(&[2; 15])?)?;
/// let handed_back = session.end(&mut []).unwrap_err();
/// assert_eq!(handed_back.to_string(), "the session was not ended");
/// let source = handed_back.source().unwrap().to_string();
/// assert_eq!(source, "the output does not have the required length (status 6)");
/// let (rest, _tag) = handed_back.session.end(&mut [0; 16])?;
/// # Ok::<(), snoekeldraf::Refused>(())
/// ```
#[derive(Debug)]
pub struct HandedBack {
    /// The session that was to end.
    pub session: Session,
    /// Why it did not.
    pub refused: Refused,
}

impl From<HandedBack> for Refused {
    fn from(handed_back: HandedBack) -> Refused {
        handed_back.refused
    }
}

impl Display for HandedBack {
    fn fmt(&self, f: &mut Formatter) -> Written {
        f.write_str("the session was not ended")
    }
}

impl Error for HandedBack {
    fn source(&self) -> Option<&(dyn Error + 'static)> {
        Some(&self.refused)
    }
}
