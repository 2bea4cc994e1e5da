//! The moves between editions 1 and 2.

use crate::refused::checked;
use crate::{raw, Refused};
#[cfg(feature = "alloc")]
use alloc::{vec, vec::Vec};

/// The length of a file after its move, from edition 1 to 2 or from 2 to 1: four bytes more or less for each row. 0 if one of
/// 20 to 24 applies: the move is then refused, whatever `out` is. No row is read.
///
/// ```
/// let file = std::fs::read("../../samples/stations.shift").unwrap();
/// assert_eq!(snoekeldraf::moved_len(&file), file.len() - 4 * 8);
/// ```
pub fn moved_len(file: &[u8]) -> usize {
    raw::moved_length(file) as usize
}

/// Moves a file of edition 1 to edition 2, in which every row has a station number: 0 in all of them. The total length and
/// every offset rise by four bytes a row; the bodies are unchanged. `out` is [`moved_len`] bytes long.
///
/// Statuses, in this order: 20 to 31 and 34 as [`ShiftFile::check`](crate::ShiftFile::check), except that 21 means that
/// the edition is not 1; 20 if the moved file would be over 1,048,576 bytes long; 6 if `out` has another length. A refusal
/// leaves `out` unchanged.
///
/// ```
/// use snoekeldraf::{moved_len, to_edition1, to_edition2, ShiftFile};
///
/// let file = std::fs::read("../../samples/day.shift")?;
/// let mut moved = vec![0; moved_len(&file)];
/// to_edition2(&file, &mut moved)?;
/// assert!(ShiftFile::check(&moved)?.entries().all(|entry| entry.unverified_station == 0));
///
/// let mut back = vec![0; file.len()];
/// to_edition1(&moved, &mut back)?;
/// assert_eq!(back, file);
/// # Ok::<(), Box<dyn std::error::Error>>(())
/// ```
pub fn to_edition2(file: &[u8], out: &mut [u8]) -> Result<(), Refused> {
    checked(raw::to_edition2(file, out))
}

/// Moves a file of edition 2 to edition 1, which has no stations. `out` is [`moved_len`] bytes long.
///
/// Statuses, in this order: 20 to 31 and 34 as [`ShiftFile::check`](crate::ShiftFile::check), except that 21 means that
/// the edition is not 2; 35 with the first row whose station is not 0; 6 if `out` has another length. A refusal leaves `out`
/// unchanged.
///
/// ```
/// use snoekeldraf::{moved_len, to_edition1, Reason};
///
/// let file = std::fs::read("../../samples/stations.shift").unwrap();
/// let mut moved = vec![0; moved_len(&file)];
/// let refused = to_edition1(&file, &mut moved).unwrap_err();
/// assert_eq!((refused.reason, refused.row), (Reason::RowStation, Some(0)));
/// ```
pub fn to_edition1(file: &[u8], out: &mut [u8]) -> Result<(), Refused> {
    checked(raw::to_edition1(file, out))
}

/// As [`to_edition2`]; returns the moved file.
///
/// ```
/// use snoekeldraf::{to_edition1_vec, to_edition2_vec};
///
/// let file = std::fs::read("../../samples/day.shift")?;
/// assert_eq!(to_edition1_vec(&to_edition2_vec(&file)?)?, file);
/// # Ok::<(), Box<dyn std::error::Error>>(())
/// ```
#[cfg(feature = "alloc")]
pub fn to_edition2_vec(file: &[u8]) -> Result<Vec<u8>, Refused> {
    let mut out = vec![0; moved_len(file)];
    to_edition2(file, &mut out)?;
    Ok(out)
}

/// As [`to_edition1`]; returns the moved file.
///
/// ```
/// assert_eq!(snoekeldraf::to_edition1_vec(&[2, 0, 0, 0, 8, 0, 0, 0])?, [1, 0, 0, 0, 8, 0, 0, 0]);
/// # Ok::<(), snoekeldraf::Refused>(())
/// ```
#[cfg(feature = "alloc")]
pub fn to_edition1_vec(file: &[u8]) -> Result<Vec<u8>, Refused> {
    let mut out = vec![0; moved_len(file)];
    to_edition1(file, &mut out)?;
    Ok(out)
}
