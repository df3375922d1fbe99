//! Cash by dates.

use super::closing::add_up;
use super::records::fill;
use crate::plain::{question_6, Cash, Date, Set};

/// The days of a common year before each month, and of all twelve.
const BEFORE: [u64; 13] = [0, 31, 59, 90, 120, 151, 181, 212, 243, 273, 304, 334, 365];

fn is_leap(year: u64) -> bool {
    year.is_multiple_of(4) && (!year.is_multiple_of(100) || year.is_multiple_of(400))
}

/// Whether there is such a date of the years 1900 to 2237, outside of which no window is.
fn exists([year, month, day]: Date) -> bool {
    if !(1900..=2237).contains(&year) || !(1..=12).contains(&month) {
        return false;
    }
    let at = month as usize;
    let leap_day = u64::from(month == 2 && is_leap(year));
    (1..=BEFORE[at] - BEFORE[at - 1] + leap_day).contains(&day)
}

/// The number of a date.
fn number([year, month, day]: Date) -> u64 {
    let past = year - 1;
    let leap_day = u64::from(month > 2 && is_leap(year));
    365 * year + past / 4 - past / 100 + past / 400 + BEFORE[month as usize - 1] + leap_day + day
}

/// The number of anniversary t.
fn anniversary([year, month, day]: Date, t: u64) -> u64 {
    let no_leap_day = month == 2 && day == 29 && !is_leap(year + t);
    number([year + t, month, day - u64::from(no_leap_day)])
}

/// What is due before a date with this number, by the sums up to each forecast year's end. The
/// current year's sum is divided before it is multiplied, which keeps to 64 bits.
fn due(sums: &[i64; 39], valuation: Date, date: Date, day: u64) -> i64 {
    let mut t = date[0] - valuation[0];
    let mut first = anniversary(valuation, t);
    if day < first {
        t -= 1;
        first = anniversary(valuation, t);
    }
    let full = sums[t as usize];
    if day == first {
        return full;
    }
    let (days, passed) = (anniversary(valuation, t + 1) - first, day - first);
    let (days, passed) = (days as i64, passed as i64);
    let total = sums[t as usize + 1] - full;
    let part = total.rem_euclid(days) * passed;
    let floor = full + total.div_euclid(days) * passed + part / days;
    let twice = 2 * (part % days);
    floor + i64::from(twice > days || (twice == days && floor % 2 != 0))
}

/// What falls due in a window, given by its valuation date, its start and its end: questions 1 to
/// 6, 9 to 14 and 19.
pub fn cash_in_window(
    file: &[u8],
    m: usize,
    method: u64,
    basis: u64,
    dates: &[Date; 3],
) -> Result<Cash, u64> {
    let mut set = Set::zero();
    fill(file, m, &mut set)?;
    question_6(&set, method, basis)?;
    let mut years = [(0, 0); 38];
    add_up(&set, method, basis, &mut years)?;
    let [valuation, start, end] = *dates;
    if !dates.iter().all(|&date| exists(date)) || valuation[0] > 2199 {
        return Err(19);
    }
    let (from, to, last) = (number(start), number(end), 2 * m as u64 - 2);
    let past = anniversary(valuation, last);
    if start < valuation || to < from || past <= from || past < to {
        return Err(19);
    }
    let mut sums = [0; 39];
    for (t, (rbns, ibnr)) in years[..last as usize].iter().enumerate() {
        sums[t + 1] = sums[t] + rbns + ibnr;
    }
    Ok(Cash {
        line: set.line,
        amount: due(&sums, valuation, end, to) - due(&sums, valuation, start, from),
    })
}
