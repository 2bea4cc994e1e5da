//! What keeps secrets from staying in memory, and the other `unsafe` code of this crate beside `raw.rs`.

use crate::{raw, Key, Suite};
use core::ptr::write_volatile;
use core::sync::atomic::{compiler_fence, Ordering};

/// Overwrites a value with zeros; the compiler does not leave it out, although the value is not read again.
pub(crate) fn wipe<T: Copy + Default>(values: &mut [T]) {
    for value in values {
        // SAFETY: `value` is a valid, aligned reference, and T is Copy, so nothing needs to be dropped.
        unsafe { write_volatile(value, T::default()) };
    }
    compiler_fence(Ordering::SeqCst);
}

/// Makes a call of the library, then overwrites the stack that it used.
pub(crate) fn forgetting<T>(call: impl FnOnce() -> T) -> T {
    let answer = call();
    raw::forget();
    answer
}

/// Makes a call on a record of the suite, then overwrites the stack that it used: suites without tables use less.
pub(crate) fn forgetting_record<T>(suite: Suite, call: impl FnOnce() -> T) -> T {
    let answer = call();
    raw::forget_record(suite.number());
    answer
}

/// Overwrites the stack below the caller, 12 KiB of it: more than the library's deepest call takes.
///
/// Every function of this crate that has a key does so itself. Call it after a function of your own has moved a secret: a move
/// copies, and the copy stays in that function's frame.
///
/// ```
/// use snoekeldraf::{forget, Key, Nonce, Refused, Session, Suite};
///
/// fn begin() -> Result<Box<Session>, Refused> {
///     let key = Key::from([7; 16]); // in a plant: from where it is kept
///     Ok(Box::new(Session::start(Suite::Speck64, &key, Nonce::assume_fresh(&[2; 15])?)?))
/// }
///
/// let session = begin()?;
/// forget(); // what `begin` left on the stack
/// # let _ = session;
/// # Ok::<(), Refused>(())
/// ```
pub fn forget() {
    raw::forget();
}

const _: () = assert!(size_of::<[Key; 16]>() == 256 && align_of::<Key>() == 1);

/// The bytes of a ring's keys, one key after another.
pub(crate) fn bytes_of(keys: &[Key; 16]) -> &[u8; 256] {
    // SAFETY: a Key is transparent over its 16 bytes, so 16 of them are 256 bytes without padding, with alignment 1; the
    // result borrows from `keys`.
    unsafe { &*core::ptr::from_ref(keys).cast() }
}
