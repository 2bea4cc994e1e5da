//! The implementations linked into this program: the plain C, and the proved library if build.rs found its archive for
//! this processor.

use crate::calls::{Library, REFERENCE};

/// The value of an output integer before the call.
const UNWRITTEN: u32 = 0xa5a5_a5a5;

/// The sealer, the opener and the check of plain/comet.c that have these names. A slice is passed as its pointer and its
/// length. It is borrowed for the whole call, and by `&mut` if the function writes it.
macro_rules! linked {
    ($seal:ident, $open:ident, $check:ident) => {
        #[rustfmt::skip]
        extern "C" {
            fn $seal(
                suite: u8, key: *const u8, key_len: usize, nonce: *const u8, nonce_len: usize,
                ad: *const u8, ad_len: usize, msg: *const u8, msg_len: usize,
                out: *mut u8, out_len: usize, tag: *mut u8, tag_len: usize,
            ) -> u32;
            fn $open(
                suite: u8, key: *const u8, key_len: usize, nonce: *const u8, nonce_len: usize,
                ad: *const u8, ad_len: usize, text: *const u8, text_len: usize,
                tag: *const u8, tag_len: usize, out: *mut u8, out_len: usize,
            ) -> u32;
            fn $check(file: *const u8, file_len: usize, row: *mut u32) -> u32;
        }

        #[rustfmt::skip]
        pub fn seal(suite: u8, key: &[u8], nonce: &[u8], ad: &[u8], msg: &[u8], out: &mut [u8], tag: &mut [u8]) -> u32 {
            // SAFETY: see above.
            unsafe {
                $seal(suite, key.as_ptr(), key.len(), nonce.as_ptr(), nonce.len(), ad.as_ptr(), ad.len(),
                    msg.as_ptr(), msg.len(), out.as_mut_ptr(), out.len(), tag.as_mut_ptr(), tag.len())
            }
        }

        #[rustfmt::skip]
        pub fn open(suite: u8, key: &[u8], nonce: &[u8], ad: &[u8], text: &[u8], tag: &[u8], out: &mut [u8]) -> u32 {
            // SAFETY: see above.
            unsafe {
                $open(suite, key.as_ptr(), key.len(), nonce.as_ptr(), nonce.len(), ad.as_ptr(), ad.len(),
                    text.as_ptr(), text.len(), tag.as_ptr(), tag.len(), out.as_mut_ptr(), out.len())
            }
        }

        pub fn check(file: &[u8]) -> crate::shift::Answer {
            let mut row = super::UNWRITTEN;
            // SAFETY: see above.
            let status = unsafe { $check(file.as_ptr(), file.len(), &mut row) };
            (status, row)
        }
    };
}

mod plain {
    linked!(plain_seal, plain_open, plain_check);
}

mod columns {
    linked!(columns_seal, columns_open, plain_check);
}

/// The proved library, called through the declarations of the Rust crate.
#[cfg(native)]
mod proved {
    use crate::amendment::Amended;
    use crate::calls::Library;
    use crate::difference::Compared;
    use crate::raw::{self, Words};
    use crate::report::Report;
    use crate::session::{Session, Step};

    /// A session as its nine words: suite, Y, Z, held bytes, totals.
    fn words(s: &Session) -> Words {
        let [y, z, held] = [s.y, s.z, s.held].map(|block| {
            let halves = [0, 8].map(|at| u64::from_le_bytes(block[at..at + 8].try_into().unwrap()));
            (halves[0], halves[1])
        });
        [s.suite.into(), y.0, y.1, z.0, z.1, held.0, held.1, s.ad_total as u64, s.text_total as u64]
    }

    fn session(words: &Words) -> Session {
        let block = |at: usize| core::array::from_fn(|i| words[at + i / 8].to_le_bytes()[i % 8]);
        let [suite, .., ad_total, text_total] = *words;
        let suite = suite.try_into().expect("no call writes a suite over 255");
        let [ad_total, text_total] = [ad_total, text_total].map(|total| total as usize);
        Session { suite, y: block(1), z: block(3), held: block(5), ad_total, text_total }
    }

    /// Applies a call, which returns status and count, to a session's words.
    fn step(mut words: Words, call: impl FnOnce(&mut Words) -> (u32, u32)) -> Step {
        let (status, count) = call(&mut words);
        Step { next: session(&words), number: status, count: count as usize }
    }

    pub const PROVED: Library = Library {
        seal: raw::seal,
        open: raw::open,
        seal_in_place: raw::seal_in_place,
        open_in_place: |suite, key, nonce, ad, text, tag| raw::open_in_place(suite, key, nonce, ad, text, tag),
        verify: |suite, key, nonce, ad, text, tag| raw::verify(suite, key, nonce, ad, text, tag),
        check: raw::check,
        lookup: raw::lookup,
        associated: |file, job| {
            let (status, [at, len]) = raw::associated(file, job);
            (status, at as usize, len as usize)
        },
        entry: |file, job| {
            let (answer, extents) = raw::entry(file, job);
            (answer, extents.map(|value| value as usize))
        },
        open_job: raw::open_job,
        verified: |file, ring, job| {
            let (answer, [at, len]) = raw::verified(file, ring, job);
            (answer, at as usize, len as usize)
        },
        session_start: |suite, key, nonce| {
            step([u64::MAX; 9], |words| (raw::session_start(words, suite, key, nonce), 0))
        },
        session_data: |session, ad| step(words(&session), |words| (raw::session_data(words, ad), 0)),
        session_part: |session, msg, out| step(words(&session), |words| raw::session_part(words, msg, out)),
        session_end: |session, out, tag| step(words(&session), |words| raw::session_end(words, out, tag)),
        session_wipe: |given| {
            let mut words = words(&given);
            raw::session_wipe(&mut words);
            session(&words)
        },
        seal_file: raw::seal_file,
        unseal_file: raw::unseal_file,
        search: raw::search,
        reseal: raw::reseal,
        compare: |first, second, [one, other, both]| {
            let (status, [file, row], counts) = raw::compare(first, second, one, other, both);
            Compared { number: status, file, row, counts }
        },
        moved_length: |file| raw::moved_length(file) as usize,
        to_edition2: raw::to_edition2,
        to_edition1: raw::to_edition1,
        amended: |amendment, day, job| {
            let (status, [file, row, at, len]) = raw::amended(amendment, day, job);
            Amended { number: status, file, row, at: at as usize, length: len as usize }
        },
        open_current: |amendment, day, ring, job, out| {
            let (status, [file, row]) = raw::open_amended(amendment, day, ring, job, out);
            (status, file, row)
        },
        seal_counted: raw::seal_counted,
        open_counted: raw::open_counted,
        report: |file, ring, jobs, numbers| {
            let ((status, row), count) = raw::report(file, ring, jobs, numbers);
            Report { number: status, row, count }
        },
        contents_header: |file| {
            let (status, [edition, count]) = raw::rows(file);
            (status, edition, count)
        },
        contents_row: |file, row| {
            let (status, f) = raw::row(file, row);
            (status, [f.job, f.station, f.suite, f.key_number, f.nonce_at, f.ad_at, f.ad_len, f.text_at, f.text_len])
        },
    };
}
#[cfg(all(bridged, not(native)))]
pub use crate::bridge::PROVED;
#[cfg(native)]
pub use proved::PROVED;

/// The plain C. It has only the sealer, the opener and the check; the rest is the reference implementation's.
pub const PLAIN: Library = Library { seal: plain::seal, open: plain::open, check: plain::check, ..REFERENCE };

/// The plain C with AES by four tables.
pub const COLUMNS: Library = Library { seal: columns::seal, open: columns::open, check: columns::check, ..REFERENCE };
