//! The writer of shift files (document 02, W4): it seals a draft, and restores the draft of a file.

use super::comet;
use super::shift::{check_as, rows, Answer, RING};

/// Status 2 if the ring has a wrong length, 6 if `out` is not as long as `input`, else 0.
pub(crate) fn refuse_lengths(ring: &[u8], input: &[u8], out: &[u8]) -> u32 {
    comet::first(&[(2, ring.len() != RING), (6, out.len() != input.len())])
}

/// Seals a draft into `out`. Refusals: the check of edition 0, 33, 10 with the first row of a retired suite, 2, 6. On a
/// refusal `out` is unchanged.
pub fn seal_file(draft: &[u8], ring: &[u8], out: &mut [u8]) -> Answer {
    let (status, row) = check_as(draft, &[0]);
    if status != 0 {
        return (status, row);
    }
    let rows = rows(draft);
    if let Some(i) = rows.iter().position(|row| draft[row.tag()].iter().any(|byte| *byte != 0)) {
        return (33, i as u32);
    }
    if let Some(i) = rows.iter().position(|row| comet::is_retired(row.suite)) {
        return (10, i as u32);
    }
    let status = refuse_lengths(ring, draft, out);
    if status != 0 {
        return (status, 0);
    }
    out.copy_from_slice(draft);
    out[0] = 1;
    for row in rows {
        let [ad, message] = [row.associated(), row.text()].map(|range| &draft[range]);
        let (text, tag) = out[row.text().start..row.tag().end].split_at_mut(row.message);
        assert_eq!(comet::seal(row.suite, row.key(ring), row.nonce(), ad, message, text, tag), 0);
    }
    (0, 0)
}

/// Restores the draft of a file into `out`. Refusals: the check of edition 1, 2, 6, 8 with the first row whose tag is
/// wrong. On 8 every byte of `out` is 0, on another refusal it is unchanged.
pub fn unseal_file(file: &[u8], ring: &[u8], out: &mut [u8]) -> Answer {
    let (status, row) = check_as(file, &[1]);
    if status != 0 {
        return (status, row);
    }
    let status = refuse_lengths(ring, file, out);
    if status != 0 {
        return (status, 0);
    }
    out.copy_from_slice(file);
    out[0] = 0;
    for (i, row) in rows(file).iter().enumerate() {
        if row.open(file, ring, &mut out[row.text()]) != 0 {
            out.fill(0);
            return (8, i as u32);
        }
        out[row.tag()].fill(0);
    }
    (0, 0)
}
