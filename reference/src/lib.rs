//! The reference implementation of the four block ciphers, COMET versions 1 and 2, the plant's shift file and its tools; the
//! test cases made with it; and the comparison of the proved library with it. The README has a map of the modules.
//!
//! The implementation is in `oracle`. It is written separately, from the papers and documents 01 and 02 alone, and shares
//! nothing with the proved crates.

pub mod oracle;
pub use oracle::{
    aes, amendment, cham, comet, contents, difference, editions, printed, report, reseal, search, session, shift,
    speck, writer,
};

// The cases: calls of an implementation, and the data of the test programs.
pub mod calls;
pub mod data;
pub mod plan;
pub mod random;
pub mod show;
pub mod trials;
pub mod vectors;

// The comparison with the proved library.
#[cfg(bridged)]
pub mod bridge;
#[cfg(feature = "linked")]
pub mod linked;
/// The declarations of the C functions, the same file as in the Rust crate.
#[cfg(native)]
#[allow(dead_code)]
#[path = "../../bindings/rust/src/raw.rs"]
mod raw;
