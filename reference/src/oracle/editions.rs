//! Moving a shift file from one edition to the other (document 02, W10).

use super::shift::{check_as, check_header, count, edition, fields_at, row_at, rows, Answer, EDITIONS, LONGEST};

/// How many bytes longer the file is in edition 2 than in edition 1.
fn growth(file: &[u8]) -> usize {
    4 * count(file)
}

/// The length of the file after a move from edition 1 to 2 or from 2 to 1; 0 if one of 20 to 24 applies.
pub fn moved_length(file: &[u8]) -> usize {
    match check_header(file, &EDITIONS) {
        0 if edition(file) == 1 => file.len() + growth(file),
        0 => file.len() - growth(file),
        _ => 0,
    }
}

/// Writes the file in another edition with station 0 everywhere: each row with its new offset, then the bodies.
fn moved(file: &[u8], from: usize, to: usize, out: &mut [u8]) {
    let n = count(file);
    let (old_table, new_table) = (row_at(from, n), row_at(to, n));
    let there = |offset: u32| (offset as usize + new_table - old_table) as u32;
    out[..2].copy_from_slice(&(to as u16).to_le_bytes());
    out[2..4].copy_from_slice(&file[2..4]);
    out[4..8].copy_from_slice(&there(file.len() as u32).to_le_bytes());
    for i in 0..n {
        let (old, new) = (row_at(from, i), row_at(to, i));
        let (old_fields, new_fields) = (fields_at(from, i), fields_at(to, i));
        out[new..new_fields].fill(0);
        out[new..new + 4].copy_from_slice(&file[old..old + 4]);
        out[new_fields..new_fields + 28].copy_from_slice(&file[old_fields..old_fields + 28]);
        let offset = u32::from_le_bytes(file[old_fields + 4..old_fields + 8].try_into().unwrap());
        out[new_fields + 4..new_fields + 8].copy_from_slice(&there(offset).to_le_bytes());
    }
    out[new_table..].copy_from_slice(&file[old_table..]);
}

/// Moves a file from edition 1 to 2, with station 0 everywhere. Refusals: the check of edition 1, 20 if the result would be
/// too long, 6. On a refusal `out` is unchanged.
pub fn to_edition2(file: &[u8], out: &mut [u8]) -> Answer {
    let (status, row) = check_as(file, &[1]);
    if status != 0 {
        return (status, row);
    }
    let length = file.len() + growth(file);
    if length > LONGEST {
        return (20, 0);
    }
    if out.len() != length {
        return (6, 0);
    }
    moved(file, 1, 2, out);
    (0, 0)
}

/// Moves a file from edition 2 to 1. Refusals: the check of edition 2, 35 with the first row whose station is not 0, 6. The
/// result is no longer than the file, so it is never too long. On a refusal `out` is unchanged.
pub fn to_edition1(file: &[u8], out: &mut [u8]) -> Answer {
    let (status, row) = check_as(file, &[2]);
    if status != 0 {
        return (status, row);
    }
    if let Some(i) = rows(file).iter().position(|row| row.station != 0) {
        return (35, i as u32);
    }
    if out.len() != file.len() - growth(file) {
        return (6, 0);
    }
    moved(file, 2, 1, out);
    (0, 0)
}
