//! 02, Job 5: dates of the Gregorian calendar. Days are counted in years that begin on 1 March, so
//! that a leap day is the last of its year, and whose months go by 153 days in five; a date is one
//! that comes back from its number. No list of month lengths is used.

/// A year, a month and a day: any numbers.
#[derive(Clone, Copy, Debug, PartialEq, Eq, PartialOrd, Ord)]
pub struct Date {
    pub year: u64,
    pub month: u64,
    pub day: u64,
}

/// The days of 400 years.
const CYCLE: i128 = 146_097;

impl Date {
    pub const fn new(year: u64, month: u64, day: u64) -> Date {
        Date { year, month, day }
    }

    /// Its number: one more for each day, 0 for 1 March of the year 0. Where there is no such date,
    /// it is the number of another one.
    pub fn number(self) -> i128 {
        let [year, month, day] = self.parts();
        let (year, month) = if month < 3 {
            (year - 1, month + 9)
        } else {
            (year, month - 3)
        };
        let leap_days = year.div_euclid(4) - year.div_euclid(100) + year.div_euclid(400);
        365 * year + leap_days + before_month(month) + day - 1
    }

    /// Whether there is such a date.
    pub fn exists(self) -> bool {
        parts_of(self.number()) == self.parts()
    }

    /// The date so many days on; it is of a year from 0 on.
    pub fn plus(self, days: i64) -> Date {
        let parts = parts_of(self.number() + i128::from(days));
        let [year, month, day] = parts.map(|part| u64::try_from(part).expect("a year from 0 on"));
        Date { year, month, day }
    }

    /// Anniversary t: the same day t years on, and 28 February where there is no 29 February.
    pub fn anniversary(self, t: u64) -> Date {
        let same = Date {
            year: self.year + t,
            ..self
        };
        if same.exists() {
            same
        } else {
            Date { day: 28, ..same }
        }
    }

    fn parts(self) -> [i128; 3] {
        [self.year, self.month, self.day].map(i128::from)
    }
}

/// The year, the month and the day of a number.
fn parts_of(number: i128) -> [i128; 3] {
    let (cycle, day) = (number.div_euclid(CYCLE), number.rem_euclid(CYCLE));
    // Without the leap days up to this day each year has 365.
    let year = (day - day / 1_460 + day / 36_524 - day / 146_096) / 365;
    let day = day - (365 * year + year / 4 - year / 100);
    let month = (5 * day + 2) / 153;
    let (year, day) = (400 * cycle + year, day - before_month(month) + 1);
    if month < 10 {
        [year, month + 3, day]
    } else {
        [year + 1, month - 9, day]
    }
}

/// The days from 1 March to the start of a month, which is 0 for March.
fn before_month(month: i128) -> i128 {
    (153 * month + 2) / 5
}
