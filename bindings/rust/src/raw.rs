//! The C functions of `include/snoekeldraf.h`, declared once for all Rust code, and a safe function for each.
//!
//! `reference/` compiles this same file to compare the library with the reference implementation. Numbers that a C function
//! writes hold [`UNWRITTEN`] before the call, so that a comparison sees one that was left out.

use core::ffi::{c_char, CStr};

/// What a number holds before the C function writes it.
pub const UNWRITTEN: u32 = 0xa5a5_a5a5;

/// The words of a `comet_session`.
pub type Words = [u64; 9];

/// A row of a shift file as `shift_row` reports it: offsets and lengths count bytes of the file.
#[repr(C)]
#[derive(Clone, Copy, PartialEq, Eq, Debug)]
pub struct ShiftFields {
    pub job: u32,
    pub station: u32,
    pub suite: u32,
    pub key_number: u32,
    pub nonce_at: u32,
    pub ad_at: u32,
    pub ad_len: u32,
    pub text_at: u32,
    pub text_len: u32,
}

impl ShiftFields {
    const UNWRITTEN: ShiftFields = ShiftFields {
        job: UNWRITTEN,
        station: UNWRITTEN,
        suite: UNWRITTEN,
        key_number: UNWRITTEN,
        nonce_at: UNWRITTEN,
        ad_at: UNWRITTEN,
        ad_len: UNWRITTEN,
        text_at: UNWRITTEN,
        text_len: UNWRITTEN,
    };
}

// The sizes that the header gives.
const _: () = assert!(size_of::<Words>() == 72 && align_of::<Words>() >= align_of::<u64>());
const _: () = assert!(size_of::<ShiftFields>() == 36 && align_of::<ShiftFields>() == align_of::<u32>());
// A slice's length always fits the 64-bit lengths of the C functions.
const _: () = assert!(size_of::<usize>() <= size_of::<u64>());

#[rustfmt::skip]
extern "C" {
    fn comet_seal(
        suite: u8, key: *const u8, key_len: u64, nonce: *const u8, nonce_len: u64, ad: *const u8, ad_len: u64,
        msg: *const u8, msg_len: u64, out: *mut u8, out_len: u64, tag: *mut u8, tag_len: u64,
    ) -> u32;
    fn comet_open(
        suite: u8, key: *const u8, key_len: u64, nonce: *const u8, nonce_len: u64, ad: *const u8, ad_len: u64,
        text: *const u8, text_len: u64, tag: *const u8, tag_len: u64, out: *mut u8, out_len: u64,
    ) -> u32;
    fn comet_seal_counted(
        suite: u8, key: *const u8, key_len: u64, nonce: *const u8, nonce_len: u64, ad: *const u8, ad_len: u64,
        msg: *const u8, msg_len: u64, out: *mut u8, out_len: u64, tag: *mut u8, tag_len: u64, calls: *mut u64,
    ) -> u32;
    fn comet_open_counted(
        suite: u8, key: *const u8, key_len: u64, nonce: *const u8, nonce_len: u64, ad: *const u8, ad_len: u64,
        text: *const u8, text_len: u64, tag: *const u8, tag_len: u64, out: *mut u8, out_len: u64, calls: *mut u64,
    ) -> u32;
    fn comet_seal_in_place(
        suite: u8, key: *const u8, key_len: u64, nonce: *const u8, nonce_len: u64, ad: *const u8, ad_len: u64,
        text: *mut u8, text_len: u64, tag: *mut u8, tag_len: u64,
    ) -> u32;
    fn comet_open_in_place(
        suite: u8, key: *const u8, key_len: u64, nonce: *const u8, nonce_len: u64, ad: *const u8, ad_len: u64,
        text: *mut u8, text_len: u64, tag: *const u8, tag_len: u64,
    ) -> u32;
    fn comet_verify(
        suite: u8, key: *const u8, key_len: u64, nonce: *const u8, nonce_len: u64, ad: *const u8, ad_len: u64,
        text: *const u8, text_len: u64, tag: *const u8, tag_len: u64,
    ) -> u32;
    fn comet_session_start(
        session: *mut Words, suite: u8, key: *const u8, key_len: u64, nonce: *const u8, nonce_len: u64,
    ) -> u32;
    fn comet_session_data(session: *mut Words, ad: *const u8, ad_len: u64) -> u32;
    fn comet_session_part(
        session: *mut Words, msg: *const u8, msg_len: u64, out: *mut u8, out_len: u64, count: *mut u32,
    ) -> u32;
    fn comet_session_end(
        session: *mut Words, out: *mut u8, out_len: u64, tag: *mut u8, tag_len: u64, count: *mut u32,
    ) -> u32;
    fn comet_session_wipe(session: *mut Words);
    fn shift_check(file: *const u8, file_len: u64, row: *mut u32) -> u32;
    fn shift_rows(file: *const u8, file_len: u64, edition: *mut u32, count: *mut u32) -> u32;
    fn shift_row(file: *const u8, file_len: u64, row: u32, fields: *mut ShiftFields) -> u32;
    fn shift_lookup(file: *const u8, file_len: u64, job: u32, row: *mut u32) -> u32;
    fn shift_associated(file: *const u8, file_len: u64, job: u32, at: *mut u32, len: *mut u32) -> u32;
    fn shift_entry(
        file: *const u8, file_len: u64, job: u32, row: *mut u32,
        ad_at: *mut u32, ad_len: *mut u32, text_at: *mut u32, text_len: *mut u32,
    ) -> u32;
    fn shift_open_job(
        file: *const u8, file_len: u64, ring: *const u8, ring_len: u64, job: u32, out: *mut u8, out_len: u64,
        row: *mut u32,
    ) -> u32;
    fn shift_verified(
        file: *const u8, file_len: u64, ring: *const u8, ring_len: u64, job: u32,
        row: *mut u32, at: *mut u32, len: *mut u32,
    ) -> u32;
    fn shift_seal_file(
        draft: *const u8, draft_len: u64, ring: *const u8, ring_len: u64, out: *mut u8, out_len: u64, row: *mut u32,
    ) -> u32;
    fn shift_unseal_file(
        file: *const u8, file_len: u64, ring: *const u8, ring_len: u64, out: *mut u8, out_len: u64, row: *mut u32,
    ) -> u32;
    fn shift_reseal(
        file: *const u8, file_len: u64, ring: *const u8, ring_len: u64, out: *mut u8, out_len: u64, row: *mut u32,
    ) -> u32;
    fn shift_search(file: *const u8, file_len: u64, job: u32, row: *mut u32, looked: *mut u32) -> u32;
    fn shift_amended(
        amendment: *const u8, amendment_len: u64, day: *const u8, day_len: u64, job: u32,
        file: *mut u32, row: *mut u32, at: *mut u32, len: *mut u32,
    ) -> u32;
    fn shift_open_amended(
        amendment: *const u8, amendment_len: u64, day: *const u8, day_len: u64, ring: *const u8, ring_len: u64,
        job: u32, out: *mut u8, out_len: u64, file: *mut u32, row: *mut u32,
    ) -> u32;
    fn shift_moved_length(file: *const u8, file_len: u64) -> u64;
    fn shift_to_edition2(file: *const u8, file_len: u64, out: *mut u8, out_len: u64, row: *mut u32) -> u32;
    fn shift_to_edition1(file: *const u8, file_len: u64, out: *mut u8, out_len: u64, row: *mut u32) -> u32;
    fn shift_compare(
        first: *const u8, first_len: u64, second: *const u8, second_len: u64,
        only_first: *mut u32, only_first_len: u64, only_second: *mut u32, only_second_len: u64,
        differ: *mut u32, differ_len: u64,
        first_count: *mut u32, second_count: *mut u32, differ_count: *mut u32, file: *mut u32, row: *mut u32,
    ) -> u32;
    fn shift_report(
        file: *const u8, file_len: u64, ring: *const u8, ring_len: u64, jobs: *mut u32, jobs_len: u64,
        numbers: *mut u8, numbers_len: u64, count: *mut u32, row: *mut u32,
    ) -> u32;
    fn snoekeldraf_words(status: u32) -> *const c_char;
    fn snoekeldraf_forget();
    fn comet_forget(suite: u8);
    fn snoekeldraf_version() -> u32;
}

/// Calls a C function. `[x]` passes the slice `x` as its pointer and its length, `[mut x]` a slice that is written; any other
/// argument is passed as it is.
macro_rules! call {
    (@ $function:ident ($($passed:expr,)*)) => {
        // SAFETY: every pointer comes from a slice or a reference that outlives the call and, for a slice, stands before that
        // slice's own length. What is written is borrowed by `&mut`, so it overlaps nothing else that is passed. Nothing is
        // read or written through the pointer of an empty slice. The functions accept any bytes and any session words, and
        // keep no pointer.
        unsafe { $function($($passed),*) }
    };
    (@ $function:ident ($($passed:expr,)*) [mut $slice:expr] $(, $($rest:tt)*)?) => {
        call!(@ $function ($($passed,)* $slice.as_mut_ptr(), $slice.len() as u64,) $($($rest)*)?)
    };
    (@ $function:ident ($($passed:expr,)*) [$slice:expr] $(, $($rest:tt)*)?) => {
        call!(@ $function ($($passed,)* $slice.as_ptr(), $slice.len() as u64,) $($($rest)*)?)
    };
    (@ $function:ident ($($passed:expr,)*) $argument:expr $(, $($rest:tt)*)?) => {
        call!(@ $function ($($passed,)* $argument,) $($($rest)*)?)
    };
    ($function:ident: $($arguments:tt)*) => { call!(@ $function () $($arguments)*) };
}

/// A status, and the row that it carries.
pub type Answer = (u32, u32);

pub fn seal(suite: u8, key: &[u8], nonce: &[u8], ad: &[u8], msg: &[u8], out: &mut [u8], tag: &mut [u8]) -> u32 {
    call!(comet_seal: suite, [key], [nonce], [ad], [msg], [mut out], [mut tag])
}

pub fn open(suite: u8, key: &[u8], nonce: &[u8], ad: &[u8], text: &[u8], tag: &[u8], out: &mut [u8]) -> u32 {
    call!(comet_open: suite, [key], [nonce], [ad], [text], [tag], [mut out])
}

/// The status, and how many cipher calls were made.
#[rustfmt::skip]
pub fn seal_counted(
    suite: u8, key: &[u8], nonce: &[u8], ad: &[u8], msg: &[u8], out: &mut [u8], tag: &mut [u8],
) -> (u32, u64) {
    let mut calls = u64::MAX;
    let status = call!(comet_seal_counted: suite, [key], [nonce], [ad], [msg], [mut out], [mut tag], &mut calls);
    (status, calls)
}

/// The status, and how many cipher calls were made.
#[rustfmt::skip]
pub fn open_counted(
    suite: u8, key: &[u8], nonce: &[u8], ad: &[u8], text: &[u8], tag: &[u8], out: &mut [u8],
) -> (u32, u64) {
    let mut calls = u64::MAX;
    let status = call!(comet_open_counted: suite, [key], [nonce], [ad], [text], [tag], [mut out], &mut calls);
    (status, calls)
}

pub fn seal_in_place(suite: u8, key: &[u8], nonce: &[u8], ad: &[u8], text: &mut [u8], tag: &mut [u8]) -> u32 {
    call!(comet_seal_in_place: suite, [key], [nonce], [ad], [mut text], [mut tag])
}

pub fn open_in_place(suite: u8, key: &[u8], nonce: &[u8], ad: &[u8], text: &mut [u8], tag: &[u8]) -> u32 {
    call!(comet_open_in_place: suite, [key], [nonce], [ad], [mut text], [tag])
}

pub fn verify(suite: u8, key: &[u8], nonce: &[u8], ad: &[u8], text: &[u8], tag: &[u8]) -> u32 {
    call!(comet_verify: suite, [key], [nonce], [ad], [text], [tag])
}

pub fn session_start(session: &mut Words, suite: u8, key: &[u8], nonce: &[u8]) -> u32 {
    call!(comet_session_start: session, suite, [key], [nonce])
}

pub fn session_data(session: &mut Words, ad: &[u8]) -> u32 {
    call!(comet_session_data: session, [ad])
}

/// The status, and how many bytes were written to `out`.
pub fn session_part(session: &mut Words, msg: &[u8], out: &mut [u8]) -> (u32, u32) {
    let mut count = UNWRITTEN;
    let status = call!(comet_session_part: session, [msg], [mut out], &mut count);
    (status, count)
}

/// The status, and how many bytes were written to `out`.
pub fn session_end(session: &mut Words, out: &mut [u8], tag: &mut [u8]) -> (u32, u32) {
    let mut count = UNWRITTEN;
    let status = call!(comet_session_end: session, [mut out], [mut tag], &mut count);
    (status, count)
}

pub fn session_wipe(session: &mut Words) {
    call!(comet_session_wipe: session)
}

pub fn check(file: &[u8]) -> Answer {
    let mut row = UNWRITTEN;
    let status = call!(shift_check: [file], &mut row);
    (status, row)
}

/// The status; the edition and the number of rows.
pub fn rows(file: &[u8]) -> (u32, [u32; 2]) {
    let [mut edition, mut count] = [UNWRITTEN; 2];
    let status = call!(shift_rows: [file], &mut edition, &mut count);
    (status, [edition, count])
}

pub fn row(file: &[u8], row: u32) -> (u32, ShiftFields) {
    let mut fields = ShiftFields::UNWRITTEN;
    let status = call!(shift_row: [file], row, &mut fields);
    (status, fields)
}

pub fn lookup(file: &[u8], job: u32) -> Answer {
    let mut row = UNWRITTEN;
    let status = call!(shift_lookup: [file], job, &mut row);
    (status, row)
}

/// The status, and offset and length of the associated data.
pub fn associated(file: &[u8], job: u32) -> (u32, [u32; 2]) {
    let [mut at, mut len] = [UNWRITTEN; 2];
    let status = call!(shift_associated: [file], job, &mut at, &mut len);
    (status, [at, len])
}

/// Status and row; offset and length of the associated data, offset and length of the text.
#[rustfmt::skip]
pub fn entry(file: &[u8], job: u32) -> (Answer, [u32; 4]) {
    let [mut row, mut ad_at, mut ad_len, mut text_at, mut text_len] = [UNWRITTEN; 5];
    let status = call!(
        shift_entry: [file], job, &mut row, &mut ad_at, &mut ad_len, &mut text_at, &mut text_len
    );
    ((status, row), [ad_at, ad_len, text_at, text_len])
}

pub fn open_job(file: &[u8], ring: &[u8], job: u32, out: &mut [u8]) -> Answer {
    let mut row = UNWRITTEN;
    let status = call!(shift_open_job: [file], [ring], job, [mut out], &mut row);
    (status, row)
}

/// Status and row; offset and length of the associated data.
pub fn verified(file: &[u8], ring: &[u8], job: u32) -> (Answer, [u32; 2]) {
    let [mut row, mut at, mut len] = [UNWRITTEN; 3];
    let status = call!(shift_verified: [file], [ring], job, &mut row, &mut at, &mut len);
    ((status, row), [at, len])
}

pub fn seal_file(draft: &[u8], ring: &[u8], out: &mut [u8]) -> Answer {
    let mut row = UNWRITTEN;
    let status = call!(shift_seal_file: [draft], [ring], [mut out], &mut row);
    (status, row)
}

pub fn unseal_file(file: &[u8], ring: &[u8], out: &mut [u8]) -> Answer {
    let mut row = UNWRITTEN;
    let status = call!(shift_unseal_file: [file], [ring], [mut out], &mut row);
    (status, row)
}

pub fn reseal(file: &[u8], ring: &[u8], out: &mut [u8]) -> Answer {
    let mut row = UNWRITTEN;
    let status = call!(shift_reseal: [file], [ring], [mut out], &mut row);
    (status, row)
}

/// Status and row, and how many rows were looked at.
pub fn search(file: &[u8], job: u32) -> (Answer, u32) {
    let [mut row, mut looked] = [UNWRITTEN; 2];
    let status = call!(shift_search: [file], job, &mut row, &mut looked);
    ((status, row), looked)
}

/// The status; the file, the row, and offset and length of the associated data there.
pub fn amended(amendment: &[u8], day: &[u8], job: u32) -> (u32, [u32; 4]) {
    let [mut file, mut row, mut at, mut len] = [UNWRITTEN; 4];
    let status = call!(shift_amended: [amendment], [day], job, &mut file, &mut row, &mut at, &mut len);
    (status, [file, row, at, len])
}

/// The status; the file and the row.
pub fn open_amended(amendment: &[u8], day: &[u8], ring: &[u8], job: u32, out: &mut [u8]) -> (u32, [u32; 2]) {
    let [mut file, mut row] = [UNWRITTEN; 2];
    let status = call!(shift_open_amended: [amendment], [day], [ring], job, [mut out], &mut file, &mut row);
    (status, [file, row])
}

pub fn moved_length(file: &[u8]) -> u64 {
    call!(shift_moved_length: [file])
}

pub fn to_edition2(file: &[u8], out: &mut [u8]) -> Answer {
    let mut row = UNWRITTEN;
    let status = call!(shift_to_edition2: [file], [mut out], &mut row);
    (status, row)
}

pub fn to_edition1(file: &[u8], out: &mut [u8]) -> Answer {
    let mut row = UNWRITTEN;
    let status = call!(shift_to_edition1: [file], [mut out], &mut row);
    (status, row)
}

/// The status; the file and the row; the counts of the three lists.
#[rustfmt::skip]
pub fn compare(
    first: &[u8], second: &[u8], only_first: &mut [u32], only_second: &mut [u32], differ: &mut [u32],
) -> (u32, [u32; 2], [u32; 3]) {
    let [mut first_count, mut second_count, mut differ_count, mut file, mut row] = [UNWRITTEN; 5];
    let status = call!(
        shift_compare: [first], [second], [mut only_first], [mut only_second], [mut differ],
        &mut first_count, &mut second_count, &mut differ_count, &mut file, &mut row
    );
    (status, [file, row], [first_count, second_count, differ_count])
}

/// Status and row, and how many entries were reported.
pub fn report(file: &[u8], ring: &[u8], jobs: &mut [u32], numbers: &mut [u8]) -> (Answer, u32) {
    let [mut count, mut row] = [UNWRITTEN; 2];
    let status = call!(shift_report: [file], [ring], [mut jobs], [mut numbers], &mut count, &mut row);
    ((status, row), count)
}

/// A status in words.
pub fn words(status: u32) -> &'static str {
    // SAFETY: the function returns a string literal of the library, ended by a zero byte, for every status.
    let words = unsafe { CStr::from_ptr(snoekeldraf_words(status)) };
    words.to_str().unwrap_or("")
}

/// Overwrites the stack below the caller, as deep as any call of the library goes.
pub fn forget() {
    call!(snoekeldraf_forget:)
}

/// Overwrites the stack below the caller, as deep as a call on a record of the suite goes.
pub fn forget_record(suite: u8) {
    call!(comet_forget: suite)
}

/// The library's version.
pub fn version() -> u32 {
    call!(snoekeldraf_version:)
}
