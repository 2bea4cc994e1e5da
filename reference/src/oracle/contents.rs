//! The table of contents by row number: the header's counts and one row's fields. Both functions check only 20 to 24.

use super::shift::{check_header, count, edition, fields_at, rows, EDITIONS};

/// Status, edition and row count; edition and count are 0 unless the status is 0.
pub type Header = (u32, u32, u32);

/// Job, station, suite, key number, offset of the nonce, offset and length of the associated data, offset and length of
/// the text.
pub type Fields = [u32; 9];

pub fn header(file: &[u8]) -> Header {
    match check_header(file, &EDITIONS) {
        0 => (0, edition(file) as u32, count(file) as u32),
        status => (status, 0, 0),
    }
}

/// Status and fields of a row; 32 if there is no such row. The fields are 0 unless the status is 0. No row is checked:
/// the fields are what the table contains, and the offset of the text is a sum modulo 2^32.
pub fn row(file: &[u8], index: u32) -> (u32, Fields) {
    let status = check_header(file, &EDITIONS);
    if status != 0 {
        return (status, [0; 9]);
    }
    let Some(row) = rows(file).get(index as usize).copied() else {
        return (32, [0; 9]);
    };
    let nonce_at = fields_at(edition(file), index as usize) + 12;
    let (ad_at, ad_len) = (row.offset as u32, row.ad as u32);
    let (suite, key_number) = (row.suite.into(), row.key.into());
    let places = [nonce_at as u32, ad_at, ad_len, ad_at.wrapping_add(ad_len), row.message as u32];
    let [nonce_at, ad_at, ad_len, text_at, text_len] = places;
    (0, [row.job, row.station, suite, key_number, nonce_at, ad_at, ad_len, text_at, text_len])
}
