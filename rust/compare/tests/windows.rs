//! Cash by dates, day by day: `cash_in_window` against the calculation, which counts days in
//! another way.

use pardesul::calls;
use reference::calendar::Tally;
use reference::cash::{ForecastYears, Window};
use reference::forecast::forecast_set;
use reference::generate::file;
use reference::records::{cells, place};
use reference::{Date, Set};

/// What stands in lent memory before a call.
const BEFORE: i64 = i64::MIN + 9;

/// The line of cover of every set, and what stands in a lent one before a call.
const LINE: u64 = 5;
const NO_LINE: u64 = u64::MAX - 9;

const FIRST: Date = Date::new(1900, 1, 1);
const LAST: Date = Date::new(2237, 12, 31);

/// A set whose forecast years, all 2m - 2 of them, have sums so large that every day has an amount
/// of its own.
struct Forecast {
    m: usize,
    file: Vec<u8>,
    years: ForecastYears,
}

impl Forecast {
    fn of(m: usize) -> Forecast {
        let mut set = Set::empty(m, false).on_line(LINE);
        for (i, j) in cells(m) {
            set.counts[place(i, j)] = 1_000;
            set.paid[place(i, j)] = 12_345_679 * (j as i64 + 1);
        }
        let forecast = forecast_set(&set, 0, 1).unwrap();
        let tally = Tally::of_entries(&forecast.entries, m);
        let smallest = (0..2 * m - 2).map(|year| tally.rbns[year] + tally.ibnr[year]);
        assert!(smallest.min().unwrap() > 100_000);
        Forecast {
            m,
            file: file(&set),
            years: ForecastYears::of(&tally, m),
        }
    }

    /// The day after the last forecast year.
    fn past(&self, valuation: Date) -> Date {
        valuation.anniversary(2 * self.m as u64 - 2)
    }

    /// The window's answer, which is the calculation's, and so is whether a date is possible; a
    /// refusal leaves the line and the amount.
    fn same(&self, valuation: Date, start: Date, end: Date) -> Result<i64, u64> {
        let window = Window {
            valuation,
            start,
            end,
        };
        let wanted = self.years.cash(&window);
        let dates = window.dates().map(|date| [date.year, date.month, date.day]);
        let (file, m, mut line, mut amount) = (&self.file, self.m, NO_LINE, BEFORE);
        let refusal = calls::cash_in_window(file, m, 0, 1, &dates, &mut line, &mut amount);
        let expected = match wanted {
            Ok(amount) => (0, LINE, amount),
            Err(refusal) => (refusal, NO_LINE, BEFORE),
        };
        assert_eq!((refusal, line, amount), expected, "{window:?}");
        for (date, [year, month, day]) in window.dates().into_iter().zip(dates) {
            let made = pardesul::Date::new(year, month, day);
            assert_eq!(made.is_ok(), date.exists(), "{date:?}");
        }
        wanted
    }
}

/// The date after this one, by nothing but what is on a calendar.
fn next(date: Date) -> Date {
    let Date { year, month, day } = date;
    let leap = year.is_multiple_of(4) && ![1900, 2100, 2200].contains(&year);
    let last = match month {
        2 if leap => 29,
        2 => 28,
        4 | 6 | 9 | 11 => 30,
        _ => 31,
    };
    match (day == last, month) {
        (false, _) => Date::new(year, month, day + 1),
        (true, 12) => Date::new(year + 1, 1, 1),
        (true, _) => Date::new(year, month + 1, 1),
    }
}

/// Every day of the years 1900 to 2237, as an end, and as the start of a window of one day but for
/// the last, which is the day after the forecast years.
#[test]
fn every_day() {
    let forecast = Forecast::of(20);
    let (mut valuation, mut day, mut days) = (FIRST, FIRST, 0);
    let mut before = 0;
    while day <= LAST {
        if day == forecast.past(valuation) && day < LAST {
            valuation = day.min(Date::new(2199, 12, 31));
            before = forecast.same(valuation, valuation, day).unwrap();
        }
        let due = forecast.same(valuation, valuation, day).unwrap();
        assert_eq!(due, before, "{day:?}");
        let next = next(day);
        match forecast.same(valuation, day, next) {
            Ok(amount) => before += amount,
            Err(refusal) => assert_eq!((refusal, day), (19, LAST)),
        }
        (day, days) = (next, days + 1);
    }
    assert_eq!(days, 123_452);
}

/// Every day of the years 1900 to 2199 as the valuation date, with the last days of all sizes of
/// sets.
#[test]
fn every_valuation() {
    let forecasts: Vec<Forecast> = [2, 3, 5, 20].map(Forecast::of).into();
    let (mut valuation, mut days) = (FIRST, 0);
    while valuation.year < 2200 {
        let forecast = &forecasts[days % forecasts.len()];
        let past = forecast.past(valuation);
        let start = valuation.plus(days as i64 % 700);
        assert!(forecast.same(valuation, start, past).is_ok());
        assert!(forecast.same(valuation, past.plus(-1), past).is_ok());
        assert_eq!(forecast.same(valuation, past, past), Err(19));
        assert_eq!(forecast.same(valuation, start, past.plus(1)), Err(19));
        assert_eq!(
            forecast.same(valuation, valuation.plus(-1), past),
            Err(19),
            "{valuation:?}"
        );
        (valuation, days) = (next(valuation), days + 1);
    }
    assert_eq!(days, 109_573);
}

/// Every leap day, and the days on its sides, as the valuation date: windows around every
/// anniversary, and by year and quarter to the end of the forecast years and past it.
#[test]
fn leap_days() {
    let forecast = Forecast::of(20);
    let mut leap_days = 0;
    for year in 1900..2200 {
        let leap_day = Date::new(year, 2, 29);
        if !leap_day.exists() {
            continue;
        }
        leap_days += 1;
        for valuation in [-1, 0, 1].map(|days| leap_day.plus(days)) {
            let past = forecast.past(valuation);
            let mut quarters = 0;
            for t in 0..38 {
                let anniversary = valuation.anniversary(t);
                for (from, to) in [(0, 1), (-1, 0), (-1, 1), (-2, 2), (0, 183), (183, 365)] {
                    let (start, end) = (anniversary.plus(from), anniversary.plus(to));
                    let answer = forecast.same(valuation, start, end);
                    assert_eq!(answer.is_ok(), t > 0 || from >= 0);
                }
                let next = valuation.anniversary(t + 1);
                let ends = [91, 182, 273].map(|days| anniversary.plus(days));
                let mut start = anniversary;
                for end in ends.into_iter().chain([next]) {
                    quarters += forecast.same(valuation, start, end).unwrap();
                    start = end;
                }
            }
            assert_eq!(forecast.same(valuation, valuation, past), Ok(quarters));
            assert_eq!(
                forecast.same(valuation, past.plus(-90), past.plus(1)),
                Err(19)
            );
        }
    }
    assert_eq!(leap_days, 73);
}

/// Dates of every month from 0 to 14 and every day from 0 to 33, and larger numbers, in each place.
#[test]
fn impossible_dates() {
    let forecast = Forecast::of(20);
    let far = [255, 256, 1 << 32, (1 << 32) + 1, u64::MAX];
    let years = [0, 4, 1899, 1900, 1904, 2000, 2023, 2024, 2100, 2199, 2200];
    let years = years.into_iter().chain([2204, 2237, 2238]).chain(far);
    let (mut accepted, mut refused) = (0, 0);
    for year in years {
        for month in (0..=14).chain(far) {
            for day in (0..=33).chain(far) {
                let date = Date::new(year, month, day);
                let (valuation, past) = (Date::new(2000, 2, 29), Date::new(2038, 2, 28));
                let answers = [
                    forecast.same(date, Date::new(2024, 1, 1), Date::new(2024, 2, 29)),
                    forecast.same(date, date, date),
                    forecast.same(valuation, date, past),
                    forecast.same(valuation, valuation, date),
                    forecast.same(Date::new(2199, 12, 31), Date::new(2200, 1, 1), date),
                ];
                accepted += answers.iter().filter(|answer| answer.is_ok()).count();
                refused += answers.iter().filter(|answer| answer.is_err()).count();
            }
        }
    }
    assert!(accepted > 5_000 && refused > 50_000, "{accepted} {refused}");
}
