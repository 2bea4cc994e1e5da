//! Units of torque.

use crate::{Reason, Refused};
use core::fmt::{Display, Formatter, Result as Written};

/// The unit of a torque. It is byte 4 of an entry's associated data, after the job number.
///
/// A unit is genuine only if it comes from [`Verified`](crate::Verified).
///
/// ```
/// use snoekeldraf::Unit;
///
/// assert_eq!(Unit::try_from(2), Ok(Unit::InchPounds));
/// assert_eq!(Unit::NewtonMetres.to_string(), "newton-metres");
/// assert_eq!(Unit::try_from(3).unwrap_err().number(), 30);
/// ```
#[derive(Clone, Copy, PartialEq, Eq, PartialOrd, Ord, Hash, Debug)]
#[repr(u8)]
pub enum Unit {
    /// Unit 1.
    NewtonMetres = 1,
    /// Unit 2.
    InchPounds = 2,
}

impl Unit {
    /// The number in a file, 1 or 2.
    ///
    /// ```
    /// assert_eq!(snoekeldraf::Unit::InchPounds.number(), 2);
    /// ```
    pub const fn number(self) -> u8 {
        self as u8
    }
}

impl TryFrom<u8> for Unit {
    type Error = Refused;

    /// Status 30 if the unit is not 1 or 2.
    fn try_from(number: u8) -> Result<Unit, Refused> {
        match number {
            1 => Ok(Unit::NewtonMetres),
            2 => Ok(Unit::InchPounds),
            _ => Err(Refused::of(Reason::RowJobOrUnit)),
        }
    }
}

impl Display for Unit {
    fn fmt(&self, f: &mut Formatter) -> Written {
        f.pad(match self {
            Unit::NewtonMetres => "newton-metres",
            Unit::InchPounds => "inch-pounds",
        })
    }
}
