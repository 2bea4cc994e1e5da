//! Sealing and opening records.

use crate::refused::done;
use crate::secret::forgetting_record;
use crate::{raw, Key, Nonce, Refused, Suite, Tag};
#[cfg(feature = "alloc")]
use alloc::{vec, vec::Vec};

/// A record to be sealed: associated data, which is authenticated and stays readable, and the message.
///
/// The names keep the two apart: exchanged, they would be sealed all the same, with the message readable by anyone.
///
/// ```
/// use snoekeldraf::Record;
///
/// let record = Record { ad: &[7, 0, 0, 0, 1], text: b"torque 48.5" }; // job 7, newton-metres
/// # assert_eq!(record.text.len(), 11);
/// ```
///
/// Two slices in a row do not compile:
///
/// ```compile_fail,E0308
/// # use snoekeldraf::{seal, Key, Nonce, Suite};
/// # let (key, nonce) = (Key::from([7; 16]), Nonce::assume_fresh(&[1; 15]).unwrap());
/// seal(Suite::Speck64, &key, nonce, (b"torque 48.5", &[7, 0, 0, 0, 1]), &mut [0; 5]);
/// ```
#[derive(Clone, Copy, PartialEq, Eq, Debug)]
pub struct Record<'a> {
    /// The associated data.
    pub ad: &'a [u8],
    /// The message.
    pub text: &'a [u8],
}

/// A sealed record, as it arrives.
///
/// ```
/// use snoekeldraf::{open, Key, Reason, Sealed, Suite};
///
/// let sealed = Sealed { nonce: &[1; 16], ad: b"data", text: b"", tag: &[0; 16] };
/// assert_eq!(open(Suite::Aes128, &Key::from([7; 16]), sealed, &mut []).unwrap_err().reason, Reason::TagDiffers);
/// ```
#[derive(Clone, Copy, PartialEq, Eq, Debug)]
pub struct Sealed<'a> {
    /// The nonce that it was sealed with.
    pub nonce: &'a [u8],
    /// The associated data.
    pub ad: &'a [u8],
    /// The ciphertext.
    pub text: &'a [u8],
    /// The tag.
    pub tag: &'a [u8],
}

/// Seals a record: the ciphertext is written to `out`, and the tag is returned.
///
/// Statuses, in this order: 10 if the suite is 4; 3 if the nonce does not have the suite's length; 4 if the associated data, 5
/// if the message is over 65,536 bytes long; 6 if `out` is not as long as the message. A refusal leaves `out` unchanged, and
/// the nonce is lost.
///
/// ```
/// use snoekeldraf::{open, seal, Key, Nonce, Record, Sealed, Suite};
///
/// let (key, nonce) = (Key::from([7; 16]), [1; 15]);
/// let record = Record { ad: &[7, 0, 0, 0, 1], text: b"torque 48.5" }; // job 7, newton-metres
/// let mut text = [0; 11];
/// let tag = seal(Suite::Speck64, &key, Nonce::assume_fresh(&nonce)?, record, &mut text)?;
///
/// let mut message = [0; 11];
/// let sealed = Sealed { nonce: &nonce, ad: record.ad, text: &text, tag: tag.as_bytes() };
/// open(Suite::Speck64, &key, sealed, &mut message)?;
/// assert_eq!(&message, b"torque 48.5");
///
/// let refused = seal(Suite::Cham64, &key, Nonce::assume_fresh(&[2; 15])?, record, &mut text).unwrap_err();
/// assert_eq!(refused.number(), 10);
/// # Ok::<(), snoekeldraf::Refused>(())
/// ```
///
/// What is written overlaps nothing that is read:
///
/// ```compile_fail,E0502
/// # use snoekeldraf::{seal, Key, Nonce, Record, Suite};
/// # let (key, nonce) = (Key::from([7; 16]), Nonce::assume_fresh(&[1; 15]).unwrap());
/// let mut text = *b"torque 48.5";
/// seal(Suite::Speck64, &key, nonce, Record { ad: b"", text: &text }, &mut text);
/// ```
pub fn seal(suite: Suite, key: &Key, nonce: Nonce, record: Record, out: &mut [u8]) -> Result<Tag, Refused> {
    let mut tag = Tag::unwritten(suite);
    let (nonce, to) = (nonce.as_bytes(), tag.as_mut_bytes());
    done(forgetting_record(suite, || raw::seal(suite.number(), key.bytes(), nonce, record.ad, record.text, out, to)))?;
    Ok(tag)
}

/// Opens a sealed record if its tag is right: the message is written to `out`.
///
/// Statuses, in this order: 3 if the nonce does not have the suite's length; 4 if the associated data, 5 if the ciphertext is
/// over 65,536 bytes long; 6 if `out` is not as long as the ciphertext; 7 if the tag does not have the suite's length; 8 if
/// the tag differs. On 8 every byte of `out` is 0; every other refusal leaves it unchanged. Suite 4 is opened as every other.
///
/// ```
/// use snoekeldraf::{open, seal, Key, Nonce, Reason, Record, Sealed, Suite};
///
/// let (key, nonce) = (Key::from([7; 16]), [1; 16]);
/// let record = Record { ad: &[7, 0, 0, 0, 1], text: b"48.5" };
/// let mut text = [0; 4];
/// let tag = seal(Suite::Aes128, &key, Nonce::assume_fresh(&nonce)?, record, &mut text)?;
///
/// let mut message = [0xaa; 4];
/// let inch_pounds = Sealed { nonce: &nonce, ad: &[7, 0, 0, 0, 2], text: &text, tag: tag.as_bytes() };
/// let refused = open(Suite::Aes128, &key, inch_pounds, &mut message).unwrap_err();
/// assert_eq!((refused.reason, message), (Reason::TagDiffers, [0; 4]));
/// # Ok::<(), snoekeldraf::Refused>(())
/// ```
pub fn open(suite: Suite, key: &Key, sealed: Sealed, out: &mut [u8]) -> Result<(), Refused> {
    let Sealed { nonce, ad, text, tag } = sealed;
    done(forgetting_record(suite, || raw::open(suite.number(), key.bytes(), nonce, ad, text, tag, out)))
}

/// Seals a message in place: `text` is the message before and the ciphertext after, and the tag is returned. The result is that
/// of [`seal`].
///
/// Statuses, in this order: 10 if the suite is 4; 3 if the nonce does not have the suite's length; 4 if the associated data, 5
/// if the message is over 65,536 bytes long. **A refusal leaves `text` unchanged: it is still plaintext.** Send it only after
/// `Ok`.
///
/// ```
/// use snoekeldraf::{open_in_place, seal_in_place, Key, Nonce, Suite};
///
/// let (key, nonce, ad) = (Key::from([7; 16]), [1; 15], [7, 0, 0, 0, 1]);
/// let mut text = *b"torque 48.5";
/// let tag = seal_in_place(Suite::Speck64, &key, Nonce::assume_fresh(&nonce)?, &ad, &mut text)?;
/// assert_ne!(&text, b"torque 48.5");
/// open_in_place(Suite::Speck64, &key, &nonce, &ad, &mut text, tag)?;
/// assert_eq!(&text, b"torque 48.5");
/// # Ok::<(), snoekeldraf::Refused>(())
/// ```
pub fn seal_in_place(suite: Suite, key: &Key, nonce: Nonce, ad: &[u8], text: &mut [u8]) -> Result<Tag, Refused> {
    let mut tag = Tag::unwritten(suite);
    let (nonce, to) = (nonce.as_bytes(), tag.as_mut_bytes());
    done(forgetting_record(suite, || raw::seal_in_place(suite.number(), key.bytes(), nonce, ad, text, to)))?;
    Ok(tag)
}

/// Opens a ciphertext in place if `tag` is its tag: `text` is the ciphertext before and the message after. The result is that
/// of [`open`].
///
/// Statuses, in this order: 3 if the nonce does not have the suite's length; 4 if the associated data, 5 if the ciphertext is
/// over 65,536 bytes long; 7 if the tag does not have the suite's length; 8 if the tag differs. On 8 every byte of `text` is
/// 0: the ciphertext is gone too. Every other refusal leaves it unchanged.
///
/// ```
/// use snoekeldraf::{open_in_place, Key, Suite, Tag};
///
/// let (mut text, tag) = ([0xaa; 4], Tag::try_from(&[0; 16][..])?);
/// let refused = open_in_place(Suite::Aes128, &Key::from([7; 16]), &[1; 16], b"", &mut text, tag).unwrap_err();
/// assert_eq!((refused.number(), text), (8, [0; 4]));
/// # Ok::<(), snoekeldraf::Refused>(())
/// ```
pub fn open_in_place(
    suite: Suite,
    key: &Key,
    nonce: &[u8],
    ad: &[u8],
    text: &mut [u8],
    tag: Tag,
) -> Result<(), Refused> {
    let tag = tag.as_bytes();
    done(forgetting_record(suite, || raw::open_in_place(suite.number(), key.bytes(), nonce, ad, text, tag)))
}

/// Checks that a sealed record is genuine and writes no message anywhere: `Ok` exactly if [`open`] with an output of the
/// text's length opens it.
///
/// Statuses, in this order: 3 if the nonce does not have the suite's length; 4 if the associated data, 5 if the ciphertext is
/// over 65,536 bytes long; 7 if the tag does not have the suite's length; 8 if the tag differs.
///
/// ```
/// use snoekeldraf::{seal, verify, Key, Nonce, Record, Sealed, Suite};
///
/// let (key, nonce) = (Key::from([7; 16]), [1; 16]);
/// let mut text = [0; 4];
/// let record = Record { ad: b"data", text: b"48.5" };
/// let tag = seal(Suite::Aes128, &key, Nonce::assume_fresh(&nonce)?, record, &mut text)?;
/// let sealed = Sealed { nonce: &nonce, ad: b"data", text: &text, tag: tag.as_bytes() };
/// verify(Suite::Aes128, &key, sealed)?;
/// assert_eq!(verify(Suite::Aes128, &key, Sealed { ad: b"date", ..sealed }).unwrap_err().number(), 8);
/// # Ok::<(), snoekeldraf::Refused>(())
/// ```
pub fn verify(suite: Suite, key: &Key, sealed: Sealed) -> Result<(), Refused> {
    let Sealed { nonce, ad, text, tag } = sealed;
    done(forgetting_record(suite, || raw::verify(suite.number(), key.bytes(), nonce, ad, text, tag)))
}

/// A result, and how many block cipher calls it took.
///
/// With a and m the block counts of associated data and text, the calls are a + m + 2 on success and on status 8, and 0 on
/// every other refusal. The last block of either may be short; no bytes are no block.
///
/// ```
/// use snoekeldraf::{open_counted, Counted, Key, Sealed, Suite};
///
/// let sealed = Sealed { nonce: &[1; 16], ad: &[], text: &[], tag: &[0; 16] };
/// let Counted { result, calls } = open_counted(Suite::Aes128, &Key::from([7; 16]), sealed, &mut []);
/// assert_eq!((result.unwrap_err().number(), calls), (8, 2)); // a wrong tag is found by doing the work
/// ```
#[derive(Clone, Copy, Debug)]
pub struct Counted<T> {
    /// As without the count.
    pub result: Result<T, Refused>,
    /// How many block cipher calls were made.
    pub calls: u64,
}

/// As [`seal`], with the number of cipher calls.
///
/// ```
/// use snoekeldraf::{seal_counted, Key, Nonce, Record, Suite};
///
/// // 5 bytes of associated data are 1 block of 8, and 11 of message are 2
/// let record = Record { ad: &[7, 0, 0, 0, 1], text: b"torque 48.5" };
/// let nonce = Nonce::assume_fresh(&[1; 15])?;
/// let counted = seal_counted(Suite::Speck64, &Key::from([7; 16]), nonce, record, &mut [0; 11]);
/// assert!(counted.result.is_ok());
/// assert_eq!(counted.calls, 1 + 2 + 2);
/// # Ok::<(), snoekeldraf::Refused>(())
/// ```
pub fn seal_counted(suite: Suite, key: &Key, nonce: Nonce, record: Record, out: &mut [u8]) -> Counted<Tag> {
    let mut tag = Tag::unwritten(suite);
    let (nonce, to) = (nonce.as_bytes(), tag.as_mut_bytes());
    let (number, calls) = forgetting_record(suite, || {
        raw::seal_counted(suite.number(), key.bytes(), nonce, record.ad, record.text, out, to)
    });
    Counted { result: done(number).map(|()| tag), calls }
}

/// As [`open`], with the number of cipher calls.
///
/// ```
/// use snoekeldraf::{open_counted, Key, Sealed, Suite};
///
/// let sealed = Sealed { nonce: &[1; 15], ad: &[], text: &[], tag: &[0; 16] };
/// let counted = open_counted(Suite::Aes128, &Key::from([7; 16]), sealed, &mut []);
/// assert_eq!((counted.result.unwrap_err().number(), counted.calls), (3, 0)); // refused before any work
/// ```
pub fn open_counted(suite: Suite, key: &Key, sealed: Sealed, out: &mut [u8]) -> Counted<()> {
    let Sealed { nonce, ad, text, tag } = sealed;
    let (number, calls) =
        forgetting_record(suite, || raw::open_counted(suite.number(), key.bytes(), nonce, ad, text, tag, out));
    Counted { result: done(number), calls }
}

/// As [`seal`]; returns the ciphertext and the tag.
///
/// ```
/// use snoekeldraf::{open_vec, seal_vec, Key, Nonce, Record, Sealed, Suite};
///
/// let (key, nonce) = (Key::from([7; 16]), [1; 16]);
/// let record = Record { ad: b"data", text: b"message" };
/// let (text, tag) = seal_vec(Suite::Aes128, &key, Nonce::assume_fresh(&nonce)?, record)?;
/// let sealed = Sealed { nonce: &nonce, ad: b"data", text: &text, tag: tag.as_bytes() };
/// assert_eq!(open_vec(Suite::Aes128, &key, sealed)?, b"message");
/// # Ok::<(), snoekeldraf::Refused>(())
/// ```
#[cfg(feature = "alloc")]
pub fn seal_vec(suite: Suite, key: &Key, nonce: Nonce, record: Record) -> Result<(Vec<u8>, Tag), Refused> {
    let mut out = vec![0; record.text.len()];
    let tag = seal(suite, key, nonce, record, &mut out)?;
    Ok((out, tag))
}

/// As [`open`]; returns the message.
///
/// ```
/// use snoekeldraf::{open_vec, Key, Sealed, Suite};
///
/// let sealed = Sealed { nonce: &[1; 16], ad: b"", text: b"text", tag: &[0; 16] };
/// assert_eq!(open_vec(Suite::Aes128, &Key::from([7; 16]), sealed).unwrap_err().number(), 8);
/// ```
#[cfg(feature = "alloc")]
pub fn open_vec(suite: Suite, key: &Key, sealed: Sealed) -> Result<Vec<u8>, Refused> {
    let mut out = vec![0; sealed.text.len()];
    open(suite, key, sealed, &mut out)?;
    Ok(out)
}
