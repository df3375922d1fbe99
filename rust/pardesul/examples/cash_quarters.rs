//! The cash of each quarter: `cash_quarters FOLDER METHOD BASIS YEAR-MONTH-DAY` reads the folder as
//! `csv_set` does, and prints for each quarter from the valuation date on its first day, the day
//! after its last and what falls due in it, and then what falls due in all.

#[allow(dead_code)]
#[path = "csv_set.rs"]
mod csv_set;

use pardesul::{Basis, Date, Method, Refusal, TriangleSet};
use std::env;
use std::error::Error;
use std::io::{self, Write};
use std::path::Path;

fn main() -> Result<(), Box<dyn Error>> {
    let words: Vec<String> = env::args().skip(1).collect();
    let [folder, method, basis, valuation] = &words[..] else {
        return Err("usage: cash_quarters FOLDER METHOD BASIS YEAR-MONTH-DAY".into());
    };
    let method = Method::try_from(number(method)?)?;
    let basis = Basis::try_from(number(basis)?)?;
    let set = csv_set::read_folder(Path::new(folder))?;
    let table = table(&set, method, basis, date(valuation)?)?;
    Ok(io::stdout().write_all(table.as_bytes())?)
}

/// The table of a set's quarters.
pub fn table(
    set: &TriangleSet,
    method: Method,
    basis: Basis,
    valuation: Date,
) -> Result<String, Refusal> {
    let cash = |start, end| {
        let cash = set.cash_in_window(method, basis, valuation, start, end);
        cash.map(|cash| cash.amount)
    };
    // Where there is no table, there is no empty window either.
    cash(valuation, valuation)?;
    let mut table = String::new();
    let mut start = valuation;
    for quarter in 1..=8 * set.m as u64 - 8 {
        let end = months_on(valuation, 3 * quarter);
        let amount = cash(start, end)?;
        table += &format!("{start}  {end}{amount:>16}\n");
        start = end;
    }
    let total = cash(valuation, start)?;
    Ok(table + &format!("{total:>38}\n"))
}

/// The same day some months on, or the last one of a month that is too short.
fn months_on(date: Date, months: u64) -> Date {
    let months = date.month() - 1 + months;
    let (year, month) = (date.year() + months / 12, months % 12 + 1);
    let day = |day| Date::new(year, month, day).ok();
    (1..=date.day())
        .rev()
        .find_map(day)
        .expect("a month has a first day")
}

/// The date of a text such as 2024-12-31.
pub fn date(text: &str) -> Result<Date, Box<dyn Error>> {
    let numbers: Result<Vec<u64>, _> = text.split('-').map(number).collect();
    match numbers?[..] {
        [year, month, day] => Ok(Date::new(year, month, day)?),
        _ => Err(format!("{text} is not a year, a month and a day").into()),
    }
}

fn number(word: &str) -> Result<u64, String> {
    word.parse().map_err(|error| format!("{word}: {error}"))
}
