//! The report on a supplier's file.

use crate::refused::checked;
use crate::secret::forgetting;
use crate::{raw, Refused, Ring};
#[cfg(feature = "alloc")]
use {
    crate::ROWS_MAX,
    alloc::{vec, vec::Vec},
};

/// A report: the parts of the caller's lists that were written, an element for each entry.
///
/// ```
/// use snoekeldraf::{report, Report, Ring};
///
/// let empty = [1, 0, 0, 0, 8, 0, 0, 0];
/// let Report { jobs, numbers } = report(&empty, &Ring::from([7; 256]), &mut [], &mut [])?;
/// assert!(jobs.is_empty() && numbers.is_empty());
/// # Ok::<(), snoekeldraf::Refused>(())
/// ```
#[derive(Clone, Copy, PartialEq, Eq, Debug)]
pub struct Report<'l> {
    /// The job number of every entry, in the file's order.
    pub jobs: &'l [u32],
    /// For each entry 0 if its tag is right under the ring, else 8.
    pub numbers: &'l [u8],
}

impl Report<'_> {
    /// Whether every tag is right.
    ///
    /// ```
    /// use snoekeldraf::{report, Ring};
    ///
    /// let ring = Ring::try_from(&std::fs::read("../../samples/ring.keys")?[..])?;
    /// let file = std::fs::read("../../samples/day.shift")?;
    /// assert!(report(&file, &ring, &mut [0; 8], &mut [0; 8])?.is_genuine());
    /// assert!(!report(&file, &Ring::from([7; 256]), &mut [0; 8], &mut [0; 8])?.is_genuine());
    /// # Ok::<(), Box<dyn std::error::Error>>(())
    /// ```
    pub fn is_genuine(&self) -> bool {
        self.numbers.iter().all(|number| *number == 0)
    }
}

/// Reports on a supplier's file of at most 65,280 bytes: every entry's job number, and whether its tag is right. A wrong
/// tag does not end the report. Lists of [`ROWS_MAX`](crate::ROWS_MAX) elements are always long enough.
///
/// Statuses, in this order: 20 if the file is longer; those of [`ShiftFile::check`](crate::ShiftFile::check); 6 if a list has
/// fewer elements than the file has entries. A refusal leaves both lists unchanged; success leaves the elements after those
/// that are written.
///
/// ```
/// use snoekeldraf::{report, Ring};
///
/// let ring = Ring::try_from(&std::fs::read("../../samples/ring.keys")?[..])?;
/// let mut file = std::fs::read("../../samples/day.shift")?;
/// *file.last_mut().unwrap() ^= 1; // in the last tag
/// let (mut jobs, mut numbers) = ([0; 512], [0; 512]);
/// let report = report(&file, &ring, &mut jobs, &mut numbers)?;
/// assert_eq!(report.jobs, [4101, 4102, 4103, 4105, 4110, 4200, 4210, 4211]);
/// assert_eq!(report.numbers, [0, 0, 0, 0, 0, 0, 0, 8]);
/// assert!(!report.is_genuine());
/// # Ok::<(), Box<dyn std::error::Error>>(())
/// ```
pub fn report<'l>(file: &[u8], ring: &Ring, jobs: &'l mut [u32], numbers: &'l mut [u8]) -> Result<Report<'l>, Refused> {
    let (answer, count) = forgetting(|| raw::report(file, ring.bytes(), jobs, numbers));
    checked(answer)?;
    Ok(Report { jobs: &jobs[..count as usize], numbers: &numbers[..count as usize] })
}

/// As [`report`]; returns each entry's job number and its 0 or 8. Status 6 cannot occur.
///
/// ```
/// use snoekeldraf::{report_vec, Ring};
///
/// let ring = Ring::try_from(&std::fs::read("../../samples/ring.keys")?[..])?;
/// let entries = report_vec(&std::fs::read("../../samples/amendment.shift")?, &ring)?;
/// assert_eq!(entries, [(4102, 0), (4110, 0), (4220, 0)]);
/// # Ok::<(), Box<dyn std::error::Error>>(())
/// ```
#[cfg(feature = "alloc")]
pub fn report_vec(file: &[u8], ring: &Ring) -> Result<Vec<(u32, u8)>, Refused> {
    let (mut jobs, mut numbers) = (vec![0; ROWS_MAX], vec![0; ROWS_MAX]);
    let report = report(file, ring, &mut jobs, &mut numbers)?;
    Ok(report.jobs.iter().copied().zip(report.numbers.iter().copied()).collect())
}
