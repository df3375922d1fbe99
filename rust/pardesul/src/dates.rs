//! Dates.

use crate::Refusal;
use std::fmt;

/// A date of the Gregorian calendar. An earlier date is less than a later one.
///
/// ```
/// use pardesul::Date;
///
/// let date = Date::new(2024, 2, 29)?;
/// assert_eq!((date.year(), date.month(), date.day()), (2024, 2, 29));
/// assert_eq!(date.to_string(), "2024-02-29");
/// assert!(date < Date::new(2024, 3, 1)?);
/// assert_eq!(Date::new(1900, 2, 29).unwrap_err().number(), 19);
/// # Ok::<(), pardesul::Refusal>(())
/// ```
#[derive(Clone, Copy, Debug, PartialEq, Eq, PartialOrd, Ord, Hash)]
pub struct Date {
    year: u64,
    month: u64,
    day: u64,
}

impl Date {
    /// The date of a year, of any size and from 0 on, a month and a day, both from 1 on.
    ///
    /// # Errors
    /// Refuses with 19 where there is no such date.
    pub fn new(year: u64, month: u64, day: u64) -> Result<Date, Refusal> {
        if (1..=month_length(year, month)).contains(&day) {
            Ok(Date { year, month, day })
        } else {
            Err(Refusal::DATE)
        }
    }

    /// The year.
    pub fn year(self) -> u64 {
        self.year
    }

    /// The month, 1 to 12.
    pub fn month(self) -> u64 {
        self.month
    }

    /// The day of the month.
    pub fn day(self) -> u64 {
        self.day
    }

    /// Year, month and day, as the calls take them.
    pub(crate) fn numbers(self) -> [u64; 3] {
        [self.year, self.month, self.day]
    }
}

/// How many days a month has, 0 where it is none.
fn month_length(year: u64, month: u64) -> u64 {
    match month {
        2 if is_leap(year) => 29,
        2 => 28,
        4 | 6 | 9 | 11 => 30,
        1..=12 => 31,
        _ => 0,
    }
}

fn is_leap(year: u64) -> bool {
    year.is_multiple_of(4) && (!year.is_multiple_of(100) || year.is_multiple_of(400))
}

/// As ISO 8601 writes it: 2024-02-29.
impl fmt::Display for Date {
    fn fmt(&self, f: &mut fmt::Formatter) -> fmt::Result {
        write!(f, "{:04}-{:02}-{:02}", self.year, self.month, self.day)
    }
}
