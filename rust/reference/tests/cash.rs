//! Dates, and cash by dates.

use reference::calendar::Tally;
use reference::cash::{forecast_years, ForecastYears, Window};
use reference::examples::{set, set_k};
use reference::generate::{case, file, windows, Span};
use reference::*;

const fn date(year: u64, month: u64, day: u64) -> Date {
    Date::new(year, month, day)
}

/// What falls due under these totals, RBNS of each forecast year.
fn cash(totals: &[i64], valuation: Date, start: Date, end: Date) -> Result<i64, Refusal> {
    let mut tally = Tally::zero();
    tally.rbns[..totals.len()].copy_from_slice(totals);
    let window = Window {
        valuation,
        start,
        end,
    };
    ForecastYears::of(&tally, totals.len() / 2 + 1).cash(&window)
}

/// From day to day by the lengths of the months.
#[test]
fn days_one_by_one() {
    let (mut day, mut days) = (date(1900, 1, 1), 0);
    let first = day.number();
    while day.year < 2238 {
        assert_eq!(day.number(), first + days, "{day:?}");
        assert_eq!(date(1900, 1, 1).plus(days as i64), day);
        assert!(day.exists(), "{day:?}");
        let leap = day.year.is_multiple_of(4) && ![1900, 2100, 2200].contains(&day.year);
        let lengths = [31, 28, 31, 30, 31, 30, 31, 31, 30, 31, 30, 31];
        let length = lengths[day.month as usize - 1] + u64::from(leap && day.month == 2);
        for past in [0, length + 1, length + 2, 1 << 40, u64::MAX] {
            assert!(!Date { day: past, ..day }.exists(), "{day:?}");
        }
        day = match (day.day == length, day.month) {
            (true, 12) => date(day.year + 1, 1, 1),
            (true, month) => date(day.year, month + 1, 1),
            (false, _) => Date {
                day: day.day + 1,
                ..day
            },
        };
        days += 1;
    }
    assert_eq!(days, 123_452);
}

#[test]
fn months_and_years_without_end() {
    for month in [0, 13, 14, 25, 1 << 33, u64::MAX] {
        for (year, day) in [(0, 1), (2024, 1), (2024, 31), (u64::MAX, 28)] {
            assert!(!date(year, month, day).exists(), "{year} {month} {day}");
        }
    }
    assert!(date(0, 2, 29).exists() && date(u64::MAX, 12, 31).exists());
    assert!(!date(u64::MAX, 2, 29).exists() && !date(100, 2, 29).exists());
}

/// The days between dates that are known by other means: 2000-01-01 is day 2,451,545 of the Julian
/// day count at noon, 1970-01-01 day 2,440,588, and 1900-01-01 day 2,415,021.
#[test]
fn known_days() {
    let days = date(2000, 1, 1).number();
    assert_eq!(days - date(1970, 1, 1).number(), 2_451_545 - 2_440_588);
    assert_eq!(days - date(1900, 1, 1).number(), 2_451_545 - 2_415_021);
}

#[test]
fn anniversaries() {
    let leap_day = date(2004, 2, 29);
    assert_eq!(leap_day.anniversary(0), leap_day);
    assert_eq!(leap_day.anniversary(1), date(2005, 2, 28));
    assert_eq!(leap_day.anniversary(4), date(2008, 2, 29));
    assert_eq!(date(2096, 2, 29).anniversary(4), date(2100, 2, 28));
    assert_eq!(date(2003, 2, 28).anniversary(1), date(2004, 2, 28));
    assert_eq!(date(2199, 12, 31).anniversary(38), date(2237, 12, 31));
}

/// K's 502 and 69, and what a half of the first year, a quarter and a day come to.
#[test]
fn windows_of_k() {
    let k = forecast_years(&file(&set_k()), 2, 0, 1).unwrap();
    let valuation = date(2023, 12, 31);
    let cash = |start, end| {
        k.cash(&Window {
            valuation,
            start,
            end,
        })
    };
    assert_eq!(cash(valuation, date(2024, 12, 31)), Ok(502));
    assert_eq!(cash(date(2024, 12, 31), date(2025, 12, 31)), Ok(69));
    assert_eq!(cash(valuation, date(2025, 12, 31)), Ok(571));
    assert_eq!(cash(valuation, date(2024, 7, 1)), Ok(251));
    // 502 × 92/366 is 126.2, and 502 × 1/366 is 1.4.
    assert_eq!(cash(date(2024, 1, 1), date(2024, 4, 1)), Ok(125));
    // 502 × 365/366 is 500.6.
    assert_eq!(cash(date(2024, 12, 30), date(2024, 12, 31)), Ok(1));
    assert_eq!(cash(date(2024, 5, 5), date(2024, 5, 5)), Ok(0));
}

/// The whole amount is rounded: 3 and half of 1 is 4, the even one, where 3 and the rounded half
/// would be 3; so is its mirror. Half of 1 alone is 0.
#[test]
fn rounded_once() {
    let (first, half) = (date(2022, 12, 31), date(2024, 7, 1));
    assert_eq!(cash(&[3, 1], first, first, half), Ok(4));
    assert_eq!(cash(&[-3, -1], first, first, half), Ok(-4));
    assert_eq!(cash(&[2, 1], first, first, half), Ok(2));
    assert_eq!(cash(&[3, 1], first, date(2023, 12, 31), half), Ok(1));
}

/// A year's sum times its days passes 64 bits.
#[test]
fn large_sums() {
    let most = 9_000_000_000_000_000_000;
    let (first, half) = (date(2023, 12, 31), date(2024, 7, 1));
    assert_eq!(cash(&[most, 0], first, first, half), Ok(most / 2));
    assert_eq!(cash(&[-most, 0], first, first, half), Ok(-most / 2));
    assert_eq!(
        cash(&[most, -most], first, half, date(2025, 12, 31)),
        Ok(-most / 2)
    );
}

#[test]
fn edges_of_question_19() {
    let asked = |valuation, start, end| cash(&[502, 69], valuation, start, end).err();
    let (valuation, past) = (date(2023, 12, 31), date(2025, 12, 31));
    assert_eq!(asked(valuation, valuation, past), None);
    assert_eq!(asked(valuation, past.plus(-1), past.plus(-1)), None);
    assert_eq!(asked(valuation, past, past), Some(19));
    assert_eq!(asked(valuation, valuation, past.plus(1)), Some(19));
    assert_eq!(asked(valuation, valuation.plus(-1), past), Some(19));
    assert_eq!(
        asked(valuation, date(2024, 1, 2), date(2024, 1, 1)),
        Some(19)
    );
    assert_eq!(asked(valuation, date(2024, 2, 30), past), Some(19));
    assert_eq!(asked(valuation, valuation, date(2025, 0, 1)), Some(19));
    assert_eq!(asked(date(2023, 2, 29), valuation, past), Some(19));
    for (year, month, day, wanted) in [
        (1899, 12, 31, Some(19)),
        (1900, 1, 1, None),
        (2199, 12, 31, None),
        (2200, 1, 1, Some(19)),
    ] {
        let valuation = date(year, month, day);
        assert_eq!(asked(valuation, valuation, valuation), wanted);
    }
}

/// The questions of the file and of the set come first: 2, 6 and 9 whatever the dates are.
#[test]
fn dates_come_last() {
    let none = Window {
        valuation: date(0, 0, 0),
        start: date(0, 0, 0),
        end: date(0, 0, 0),
    };
    let k = file(&set_k());
    let unreported = file(&set(&[&[0, 0], &[90]], &[&[600, 400], &[660]], None));
    assert_eq!(cash_in_window(&[], 2, 0, 1, &none), Err(2));
    assert_eq!(cash_in_window(&k, 2, 3, 1, &none), Err(6));
    assert_eq!(cash_in_window(&unreported, 2, 0, 1, &none), Err(9));
    assert_eq!(cash_in_window(&k, 2, 0, 1, &none), Err(19));
}

/// The amount comes with the line of the set.
#[test]
fn line_of_a_window() {
    let (valuation, end) = (date(2023, 12, 31), date(2025, 12, 31));
    let whole = Window {
        valuation,
        start: valuation,
        end,
    };
    for line in 0..=5 {
        let k = file(&set_k().on_line(line));
        let wanted = Cash { line, amount: 571 };
        assert_eq!(cash_in_window(&k, 2, 0, 1, &whole), Ok(wanted));
        assert_eq!(forecast_years(&k, 2, 0, 1).unwrap().line, line);
    }
}

/// Windows made to be in the forecast years are, and no others; a year's has its sum, all of them
/// the total that `closing` prints, and two that follow on add up.
#[test]
fn generated_windows() {
    let mut accepted = 0;
    for seed in 0..1_500 {
        let case = case(seed);
        let (m, method, basis) = (case.m, case.method, case.basis);
        let Ok(years) = forecast_years(&case.file, m, method, basis) else {
            continue;
        };
        accepted += 1;
        let line = format!("{m} {method} {basis}\n");
        let printed = closing(&[line.as_bytes(), &case.file].concat());
        let printed = String::from_utf8(printed).unwrap();
        let sums: Vec<i64> = printed
            .lines()
            .map(|line| line.rsplit(' ').next().unwrap().parse().unwrap())
            .collect();
        for (span, window) in windows(seed, m) {
            let answer = years.cash(&window);
            let text = format!("seed {seed}, {span:?}, {window:?}");
            assert_eq!(answer.is_ok(), span.is_good(), "{text}");
            assert!(span.is_good() || answer == Err(19), "{text}");
            match span {
                Span::Whole => assert_eq!(answer.ok(), sums.last().copied(), "{text}"),
                Span::Empty => assert_eq!(answer, Ok(0), "{text}"),
                Span::Year => {
                    let t = window.start.year - window.valuation.year;
                    assert_eq!(answer, Ok(sums[t as usize]), "{text}");
                }
                Span::Any | Span::Quarter | Span::AcrossYears => {
                    let days = window.end.number() - window.start.number();
                    let middle = window.start.plus(days as i64 / 2);
                    let first = years.cash(&Window {
                        end: middle,
                        ..window
                    });
                    let second = years.cash(&Window {
                        start: middle,
                        ..window
                    });
                    let both = first.and_then(|first| Ok(first + second?));
                    assert_eq!(both, answer, "{text}");
                }
                _ => {}
            }
        }
    }
    assert!(accepted > 500, "{accepted}");
}
