//! Finding a job by binary search (document 02, W6).

use super::shift::{check_header, rows, Answer, EDITIONS};

/// Status and row of a job, and how many rows the search read: 20 to 24 with none, else the result of a binary search over
/// the table, whether or not it is sorted.
pub fn search(file: &[u8], job: u32) -> (Answer, u32) {
    let status = check_header(file, &EDITIONS);
    if status != 0 {
        return ((status, 0), 0);
    }
    let rows = rows(file);
    let (mut start, mut count) = (0, rows.len());
    let mut looked = 0;
    while count > 0 {
        let middle = start + count / 2;
        looked += 1;
        if rows[middle].job == job {
            return ((0, middle as u32), looked);
        }
        if rows[middle].job < job {
            (start, count) = (middle + 1, start + count - (middle + 1));
        } else {
            count = middle - start;
        }
    }
    ((32, 0), looked)
}
