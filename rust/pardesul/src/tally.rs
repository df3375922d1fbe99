//! The calendar-year tally.

use crate::calls;

/// RBNS and IBNR by calendar year 1 to 38, year t at place t - 1.
///
/// ```
/// use pardesul::Tally;
///
/// let tally = Tally::zero().add(1, 275, 165).add(1, 62, 0);
/// assert_eq!((tally.rbns[0], tally.ibnr[0]), (337, 165));
/// assert_eq!(tally.clone().add(1, i64::MAX, 0), tally);
/// ```
#[derive(Clone, Debug, PartialEq, Eq)]
pub struct Tally {
    /// Reported but not settled.
    pub rbns: [i64; 38],
    /// Incurred but not reported.
    pub ibnr: [i64; 38],
}

impl Tally {
    /// The tally of no cells.
    pub fn zero() -> Tally {
        Tally {
            rbns: [0; 38],
            ibnr: [0; 38],
        }
    }

    /// The tally with a cell added; the same tally for a year outside 1 to 38, or where a sum
    /// leaves 64 bits.
    pub fn add(mut self, year: u64, rbns: i64, ibnr: i64) -> Tally {
        calls::tally_add(&mut self.rbns, &mut self.ibnr, year, rbns, ibnr);
        self
    }
}
