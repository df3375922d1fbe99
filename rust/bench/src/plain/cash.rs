//! Cash by dates.

use super::closing::calendar_years;
use super::forecast::{forecast_set, question_6};
use super::{nearest, read_set};

/// A year, a month and a day.
pub type Date = [u64; 3];

/// The line of the set, and what falls due in a window.
#[derive(Clone, Debug, PartialEq, Eq)]
pub struct Cash {
    pub line: u64,
    pub amount: i64,
}

const MONTHS: [u64; 12] = [31, 28, 31, 30, 31, 30, 31, 31, 30, 31, 30, 31];

fn is_leap(year: u64) -> bool {
    year.is_multiple_of(4) && (!year.is_multiple_of(100) || year.is_multiple_of(400))
}

fn month_length(year: u64, month: u64) -> u64 {
    match month {
        2 if is_leap(year) => 29,
        1..=12 => MONTHS[month as usize - 1],
        _ => 0,
    }
}

fn exists([year, month, day]: Date) -> bool {
    (1..=month_length(year, month)).contains(&day)
}

/// The number of a date.
fn number([year, month, day]: Date) -> i128 {
    let months: u64 = (1..month).map(|month| month_length(year, month)).sum();
    let years = 365 * i128::from(year) + i128::from((year - 1) / 4) - i128::from((year - 1) / 100)
        + i128::from((year - 1) / 400);
    years + i128::from(months + day)
}

/// The number of anniversary t.
fn anniversary([year, month, day]: Date, t: usize) -> i128 {
    let year = year + t as u64;
    number([year, month, day.min(month_length(year, month))])
}

/// What is due before a day.
fn due(years: &[[i128; 2]], valuation: Date, day: i128) -> i128 {
    let mut full = 0;
    for (t, [rbns, ibnr]) in years.iter().enumerate() {
        let (first, next) = (anniversary(valuation, t), anniversary(valuation, t + 1));
        if day < next {
            let days = next - first;
            return nearest(full * days + (rbns + ibnr) * (day - first), days);
        }
        full += rbns + ibnr;
    }
    full
}

/// What falls due in a window, given by its valuation date, its start and its end: questions 1 to
/// 6, 9 to 14 and 19.
pub fn cash_in_window(
    file: &[u8],
    m: usize,
    method: u64,
    basis: u64,
    dates: &[Date; 3],
) -> Result<Cash, u64> {
    let set = read_set(file, m)?;
    question_6(&set, method, basis)?;
    let mut out = [0; 1_560];
    forecast_set(&set, method, basis, &mut out[..2 * m * (2 * m - 1)])?;
    let [valuation, start, end] = *dates;
    if !dates.iter().all(|&date| exists(date)) || !(1900..=2199).contains(&valuation[0]) {
        return Err(19);
    }
    // Year, month and day in this order compare as dates do.
    if start < valuation || end < start {
        return Err(19);
    }
    let (start, end, past) = (
        number(start),
        number(end),
        anniversary(valuation, 2 * m - 2),
    );
    if start >= past || end > past {
        return Err(19);
    }
    let years = &calendar_years(m, &out)[..2 * m - 2];
    Ok(Cash {
        line: set.line,
        amount: (due(years, valuation, end) - due(years, valuation, start)) as i64,
    })
}
