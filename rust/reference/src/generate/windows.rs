//! Windows of dates: those that lie in the forecast years in every way, and those that do not.

use super::random::Random;
use crate::cash::Window;
use crate::dates::Date;

/// How a window is made.
#[derive(Clone, Copy, Debug, PartialEq, Eq)]
pub enum Span {
    /// From any day to any later one.
    Any,
    /// One day.
    Day,
    /// No day.
    Empty,
    /// A calendar quarter.
    Quarter,
    /// A forecast year.
    Year,
    /// The first 183 days of a forecast year of 366.
    HalfYear,
    /// Some days on each side of an anniversary.
    AcrossYears,
    /// The last day of the last forecast year.
    LastDay,
    /// All forecast years.
    Whole,
    /// From the day after the last forecast year.
    LateStart,
    /// To a day past that.
    LateEnd,
    /// From a day before the valuation date.
    EarlyStart,
    /// To a day before its start.
    Turned,
    /// With a valuation date outside 1900 to 2199.
    OtherCentury,
    /// With a date that there is not.
    NoDate,
}

impl Span {
    pub const ALL: [Span; 15] = [
        Span::Any,
        Span::Day,
        Span::Empty,
        Span::Quarter,
        Span::Year,
        Span::HalfYear,
        Span::AcrossYears,
        Span::LastDay,
        Span::Whole,
        Span::LateStart,
        Span::LateEnd,
        Span::EarlyStart,
        Span::Turned,
        Span::OtherCentury,
        Span::NoDate,
    ];

    /// The name in reports.
    pub fn name(self) -> &'static str {
        match self {
            Span::Any => "window, any",
            Span::Day => "window of a day",
            Span::Empty => "window, empty",
            Span::Quarter => "window of a quarter",
            Span::Year => "window of a year",
            Span::HalfYear => "window of half a year",
            Span::AcrossYears => "window across years",
            Span::LastDay => "window of the last day",
            Span::Whole => "window of all years",
            Span::LateStart => "window, late start",
            Span::LateEnd => "window, late end",
            Span::EarlyStart => "window, early start",
            Span::Turned => "window, turned",
            Span::OtherCentury => "window of another century",
            Span::NoDate => "window without a date",
        }
    }

    /// Whether question 19 gets a yes.
    pub fn is_good(self) -> bool {
        !matches!(
            self,
            Span::LateStart
                | Span::LateEnd
                | Span::EarlyStart
                | Span::Turned
                | Span::OtherCentury
                | Span::NoDate
        )
    }
}

/// A window of each span in the forecast years of a set of m accident years; where there is no
/// such set, in those of one that has as many as can be.
pub fn windows(seed: u64, m: u64) -> [(Span, Window); Span::ALL.len()] {
    let mut random = Random::new(seed ^ (1 << 45));
    let years = 2 * m.clamp(2, 20) - 2;
    Span::ALL.map(|span| (span, any_window(&mut random, span, years)))
}

/// A window of this span, of so many forecast years.
fn any_window(random: &mut Random, span: Span, years: u64) -> Window {
    let mut valuation = match span {
        Span::OtherCentury => other_century(random),
        _ => any_valuation(random),
    };
    while span == Span::HalfYear && long_years(valuation, years).is_empty() {
        valuation = any_valuation(random);
    }
    let past = valuation.anniversary(years);
    let days = days_between(valuation, past);
    let one_of = |random: &mut Random| valuation.plus(random.between(0, days - 1));
    let year = |random: &mut Random| random.below(years as usize) as u64;
    let (start, end) = match span {
        Span::Any | Span::OtherCentury | Span::NoDate => {
            let start = one_of(random);
            let rest = days_between(start, past);
            (start, start.plus(random.between(0, rest)))
        }
        Span::Day => {
            let start = one_of(random);
            (start, start.plus(1))
        }
        Span::Empty => {
            let start = one_of(random);
            (start, start)
        }
        Span::Quarter => {
            let year = valuation.year + random.between(1, years as i64 - 1) as u64;
            let quarter = random.below(4) as u64;
            let start = Date::new(year, 3 * quarter + 1, 1);
            let end = match quarter {
                3 => Date::new(year + 1, 1, 1),
                _ => Date::new(year, 3 * quarter + 4, 1),
            };
            (start, end)
        }
        Span::Year => {
            let t = year(random);
            (valuation.anniversary(t), valuation.anniversary(t + 1))
        }
        Span::HalfYear => {
            let start = valuation.anniversary(random.pick(&long_years(valuation, years)));
            (start, start.plus(183))
        }
        Span::AcrossYears => {
            let middle = valuation.anniversary(random.between(1, years as i64 - 1) as u64);
            let (before, after) = (random.between(1, 300), random.between(1, 300));
            (middle.plus(-before), middle.plus(after))
        }
        Span::LastDay => (past.plus(-1), past),
        Span::Whole => (valuation, past),
        Span::LateStart => {
            let start = past.plus(random.pick(&[0, 0, 1, 400]));
            (start, start.plus(random.between(0, 1)))
        }
        Span::LateEnd => {
            let far = random.pick(&[2_238, 9_999, 10_000, 1 << 32, u64::MAX]);
            let next = past.plus(1);
            let ends = [next, next, past.plus(366), Date { year: far, ..past }];
            let end = random.pick(&ends);
            // A date of a far year may not be one, and is past the forecast years if it is.
            (one_of(random), end)
        }
        Span::EarlyStart => {
            let start = valuation.plus(-random.pick(&[1, 1, 2, 366, 40_000]));
            (start, one_of(random))
        }
        Span::Turned => {
            let end = one_of(random);
            (end.plus(random.pick(&[1, 1, 2, 300])), end)
        }
    };
    let mut window = Window {
        valuation,
        start,
        end,
    };
    if span == Span::NoDate {
        let date = match random.below(3) {
            0 => &mut window.valuation,
            1 => &mut window.start,
            _ => &mut window.end,
        };
        *date = no_date(random, *date);
    }
    window
}

/// A valuation date, often one at which days are easily counted wrongly.
fn any_valuation(random: &mut Random) -> Date {
    let year = random.between(1900, 2199) as u64;
    let ends = [
        Date::new(1900, 1, 1),
        Date::new(1900, 2, 28),
        Date::new(1900, 3, 1),
        Date::new(2000, 2, 29),
        Date::new(2196, 2, 29),
        Date::new(2199, 12, 31),
    ];
    match random.below(8) {
        // Anniversary 0 is 29 February or, in a common year, 28 February.
        0 | 1 => Date::new(year / 4 * 4, 2, 29).anniversary(0),
        2 => Date::new(year, 2, 28),
        3 => Date::new(year, 3, 1),
        4 => Date::new(year, 12, 31),
        5 => random.pick(&ends),
        _ => Date::new(year, 1, 1).plus(random.between(0, 364)),
    }
}

/// The anniversaries, of so many years, with which a year of 366 days begins.
fn long_years(valuation: Date, years: u64) -> Vec<u64> {
    let days = |t| days_between(valuation.anniversary(t), valuation.anniversary(t + 1));
    (0..years).filter(|&t| days(t) == 366).collect()
}

/// A date that no valuation can have.
fn other_century(random: &mut Random) -> Date {
    let nearest = [Date::new(1899, 12, 31), Date::new(2200, 1, 1)];
    let years = [200, 1_600, 1_896, 2_204, 2_237, 9_999];
    match random.below(2) {
        0 => random.pick(&nearest),
        _ => Date::new(random.pick(&years), 2, 28).plus(random.between(0, 300)),
    }
}

/// A date near this one that there is not.
fn no_date(random: &mut Random, date: Date) -> Date {
    let common = random.pick(&[1900, 1901, 1999, 2023, 2100, 2199, 2200]);
    let leap = random.pick(&[1904, 2000, 2024, 2196]);
    let short = random.pick(&[4, 6, 9, 11]);
    let far = random.pick(&[13, 14, 256, 257, 1 << 32, (1 << 32) + 1, u64::MAX]);
    match random.below(10) {
        0 => Date { month: 0, ..date },
        1 => Date { month: 13, ..date },
        2 => Date { month: far, ..date },
        3 => Date { day: 0, ..date },
        4 => Date { day: 32, ..date },
        5 => Date {
            day: far.saturating_add(32),
            ..date
        },
        6 => Date::new(common, 2, 29),
        7 => Date::new(leap, 2, 30),
        8 => Date::new(date.year, short, 31),
        _ => Date::new(random.pick(&[0, u64::MAX]), far, 0),
    }
}

fn days_between(from: Date, to: Date) -> i64 {
    i64::try_from(to.number() - from.number()).expect("some days")
}
