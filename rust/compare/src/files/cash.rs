//! Cash by dates.

use super::{both_ways, numbered, LentLine};
use crate::difference::{hexadecimal, same, Difference};
use crate::memory::Memory;
use crate::Counts;
use pardesul::{calls, Basis, Cash, Date, Method};
use reference::cash::{forecast_years, ForecastYears, Window};
use reference::generate::{windows, Case};
use std::collections::BTreeSet;

/// What is counted of cases that met a refusal.
const REFUSED: [(u64, &str); 13] = [
    (1, "cash refused 1"),
    (2, "cash refused 2"),
    (3, "cash refused 3"),
    (4, "cash refused 4"),
    (5, "cash refused 5"),
    (6, "cash refused 6"),
    (9, "cash refused 9"),
    (10, "cash refused 10"),
    (11, "cash refused 11"),
    (12, "cash refused 12"),
    (13, "cash refused 13"),
    (14, "cash refused 14"),
    (19, "cash refused 19"),
];

/// m, method and basis.
type Settings = [u64; 3];

/// A window of each span under the case's method and basis.
pub fn compare(seed: u64, case: &Case, counts: &mut Counts) -> Result<(), Difference> {
    let settings = [case.m, case.method, case.basis];
    let years = counts.answer(seed, || of_file(&case.file, settings));
    let mut refusals = BTreeSet::new();
    for (span, window) in windows(seed, case.m) {
        let answer = compare_window(seed, case, &years, &window, counts)?;
        counts.count(span.name(), answer.is_ok());
        refusals.extend(answer.err());
    }
    for (number, name) in REFUSED {
        counts.count(name, refusals.contains(&number));
    }
    Ok(())
}

/// Any window of any file.
pub fn compare_file(
    seed: u64,
    file: &[u8],
    settings: Settings,
    window: &Window,
) -> Result<(), Difference> {
    let [m, method, basis] = settings;
    let case = Case {
        m,
        file: file.to_vec(),
        method,
        basis,
        out_len: 0,
        cut: 0,
    };
    let years = of_file(file, settings);
    compare_window(seed, &case, &years, window, &mut Counts::default()).map(|_| ())
}

fn of_file(file: &[u8], [m, method, basis]: Settings) -> Result<ForecastYears, u64> {
    forecast_years(file, m, method, basis)
}

/// A window of a case, whose forecast years the calculation has; says the answer.
fn compare_window(
    seed: u64,
    case: &Case,
    years: &Result<ForecastYears, u64>,
    window: &Window,
    counts: &mut Counts,
) -> Result<Result<Cash, u64>, Difference> {
    let (file, m, method, basis) = (&case.file, case.m as usize, case.method, case.basis);
    let text = || {
        let (m, file) = (case.m, hexadecimal(file));
        format!("seed {seed}, m {m}, method {method}, basis {basis}, {window:?}, file {file}")
    };
    let wanted = counts.answer(seed, || match years {
        Ok(years) => Ok(Cash {
            line: years.line,
            amount: years.cash(window)?,
        }),
        Err(refusal) => Err(*refusal),
    });

    let mut memory = Memory::<i64>::new(seed, &[1]);
    let mut line = LentLine::new(seed);
    let [amount] = memory.lists();
    let dates = window.dates().map(|date| [date.year, date.month, date.day]);
    let refusal =
        calls::cash_in_window(file, m, method, basis, &dates, line.lent(), &mut amount[0]);
    line.beside("cash", refusal, &wanted, |cash| cash.line, text)?;
    let list = wanted.ok().map(|cash| [cash.amount]);
    let lists = list.as_ref().map(|list| [&list[..]]);
    memory.holds("cash", lists.as_ref().map(|lists| &lists[..]), text)?;

    let made = dates.map(|[year, month, day]| numbered(Date::new(year, month, day)));
    for (date, found) in window.dates().into_iter().zip(made) {
        let found = found.map(|date| [date.year(), date.month(), date.day()]);
        let exists = date.exists();
        let wanted = Some([date.year, date.month, date.day]).filter(|_| exists);
        same("Date::new", found, wanted.ok_or(19), text)?;
    }
    let settings = Method::try_from(method).and_then(|m| Ok((m, Basis::try_from(basis)?)));
    if let (Ok((method, basis)), [Ok(valuation), Ok(start), Ok(end)]) = (settings, made) {
        let ways = both_ways(
            case,
            |file, m| pardesul::cash_in_window(file, m, method, basis, valuation, start, end),
            |set| set.cash_in_window(method, basis, valuation, start, end),
        );
        for (way, found) in ways {
            same(&format!("cash {way}"), found, wanted, text)?;
        }
    }
    Ok(wanted)
}
