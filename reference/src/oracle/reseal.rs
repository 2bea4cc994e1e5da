//! Resealing the entries of suite 4 as suite 3 (document 02, W7).

use super::comet;
use super::shift::{check_as, fields_at, rows, Answer, Row};
use super::writer::refuse_lengths;

const FROM: u8 = 4;
const TO: u8 = 3;

/// The row as resealing writes it.
fn resealed(row: &Row) -> Row {
    Row { suite: if row.suite == FROM { TO } else { row.suite }, ..*row }
}

/// The lowest row that would clash with an earlier one after resealing.
fn first_clash(rows: &[Row]) -> Option<usize> {
    let rows: Vec<Row> = rows.iter().map(resealed).collect();
    (0..rows.len()).find(|later| rows[..*later].iter().any(|earlier| earlier.clashes(&rows[*later])))
}

/// Reseals a file's entries of suite 4 and copies every other byte to `out`. Refusals: the check of edition 1; 29 with the
/// lowest later row if two rows would clash after resealing; 2; 6; 8 with the first entry of suite 4 whose tag is wrong. No
/// other entry is opened. On 8 every byte of `out` is 0, on another refusal it is unchanged.
pub fn reseal(file: &[u8], ring: &[u8], out: &mut [u8]) -> Answer {
    let (status, row) = check_as(file, &[1]);
    if status != 0 {
        return (status, row);
    }
    let rows = rows(file);
    if let Some(later) = first_clash(&rows) {
        return (29, later as u32);
    }
    let status = refuse_lengths(ring, file, out);
    if status != 0 {
        return (status, 0);
    }
    out.copy_from_slice(file);
    for (i, row) in rows.iter().enumerate().filter(|(_, row)| row.suite == FROM) {
        let mut message = vec![0; row.message];
        if row.open(file, ring, &mut message) != 0 {
            out.fill(0);
            return (8, i as u32);
        }
        let ad = &file[row.associated()];
        let (text, tag) = comet::specified(TO, row.key(ring), resealed(row).nonce(), ad, &message);
        out[row.text()].copy_from_slice(&text);
        out[row.tag()].copy_from_slice(&tag);
        out[fields_at(1, i)] = TO;
    }
    (0, 0)
}
