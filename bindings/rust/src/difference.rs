//! The comparison of two shift files.

use crate::refused::of_two;
use crate::{raw, Refused};
#[cfg(feature = "alloc")]
use {
    crate::ROWS_MAX,
    alloc::{vec, vec::Vec},
};

/// The jobs in which two files differ, in rising order: the parts of the caller's lists that were written.
///
/// ```
/// use snoekeldraf::{compare, Difference};
///
/// let day = std::fs::read("../../samples/day.shift")?;
/// let (mut a, mut b, mut c) = ([0; 512], [0; 512], [0; 512]);
/// let Difference { only_first, only_second, differ } = compare(&day, &day, &mut a, &mut b, &mut c)?;
/// assert!(only_first.is_empty() && only_second.is_empty() && differ.is_empty());
/// # Ok::<(), Box<dyn std::error::Error>>(())
/// ```
#[derive(Clone, Copy, PartialEq, Eq, Debug)]
pub struct Difference<'l> {
    /// The jobs only in the first file.
    pub only_first: &'l [u32],
    /// The jobs only in the second.
    pub only_second: &'l [u32],
    /// The jobs in both but different in suite, key number, associated data length, nonce, body or station.
    pub differ: &'l [u32],
}

/// Compares two files, each of edition 1, where every station is 0, or 2. Job numbers are written in rising order to the
/// front of three lists; lists of [`ROWS_MAX`](crate::ROWS_MAX) elements are always long enough. Offsets do not
/// count, and no entry is opened.
///
/// Statuses, in this order: those of [`ShiftFile::check`](crate::ShiftFile::check) for the first file (file 1), then for
/// the second (file 2); 36 if a list is longer than its buffer. A refusal leaves the lists unchanged; success leaves the
/// elements after those that are written.
///
/// ```
/// use snoekeldraf::{compare, Reason};
///
/// let day = std::fs::read("../../samples/day.shift")?;
/// let amendment = std::fs::read("../../samples/amendment.shift")?;
/// let mut lists = [[0; 512]; 3];
/// let [first, second, both] = &mut lists;
/// let difference = compare(&day, &amendment, first, second, both)?;
/// assert_eq!(difference.only_second, [4220]);
/// assert_eq!(difference.differ, [4102, 4110]);
///
/// let refused = compare(&day, &day[..7], &mut [], &mut [], &mut []).unwrap_err();
/// assert_eq!((refused.reason, refused.file), (Reason::FileLength, Some(2)));
/// # Ok::<(), Box<dyn std::error::Error>>(())
/// ```
pub fn compare<'l>(
    first: &[u8],
    second: &[u8],
    only_first: &'l mut [u32],
    only_second: &'l mut [u32],
    differ: &'l mut [u32],
) -> Result<Difference<'l>, Refused> {
    let (number, of, counts) = raw::compare(first, second, only_first, only_second, differ);
    of_two(number, of)?;
    let [a, b, c] = counts.map(|count| count as usize);
    Ok(Difference { only_first: &only_first[..a], only_second: &only_second[..b], differ: &differ[..c] })
}

/// As [`Difference`], with lists of its own.
///
/// ```
/// use snoekeldraf::{compare_vec, Differences};
///
/// let day = std::fs::read("../../samples/day.shift")?;
/// let Differences { only_first, only_second, differ } = compare_vec(&day, &day)?;
/// assert!(only_first.is_empty() && only_second.is_empty() && differ.is_empty());
/// # Ok::<(), Box<dyn std::error::Error>>(())
/// ```
#[cfg(feature = "alloc")]
#[derive(Clone, PartialEq, Eq, Debug)]
pub struct Differences {
    /// The jobs only in the first file.
    pub only_first: Vec<u32>,
    /// The jobs only in the second.
    pub only_second: Vec<u32>,
    /// The jobs in both but different.
    pub differ: Vec<u32>,
}

/// As [`compare`]; returns the three lists. Status 36 cannot occur.
///
/// ```
/// use snoekeldraf::compare_vec;
///
/// let (day, stations) = (std::fs::read("../../samples/day.shift")?, std::fs::read("../../samples/stations.shift")?);
/// let differences = compare_vec(&day, &stations)?;
/// assert!(differences.only_first.is_empty() && differences.only_second.is_empty());
/// assert_eq!(differences.differ, [4101, 4102, 4103, 4105, 4200, 4210, 4211]); // 4110 has station 0
/// # Ok::<(), Box<dyn std::error::Error>>(())
/// ```
#[cfg(feature = "alloc")]
pub fn compare_vec(first: &[u8], second: &[u8]) -> Result<Differences, Refused> {
    let [mut a, mut b, mut c] = [0; 3].map(|unwritten| vec![unwritten; ROWS_MAX]);
    let Difference { only_first, only_second, differ } = compare(first, second, &mut a, &mut b, &mut c)?;
    let [one, two, both] = [only_first.len(), only_second.len(), differ.len()];
    a.truncate(one);
    b.truncate(two);
    c.truncate(both);
    Ok(Differences { only_first: a, only_second: b, differ: c })
}
