//! A set's file from a claims journal in CSV: `journal_set FILE M [METHOD BASIS] [LINE]` replays
//! the journal of M accident years, and writes the file of its counts and payments to standard
//! output; with a method and a basis it writes an input of `closing`, which has a first line before
//! the file. LINE is the set's line of cover, 0 to 5, and 0 where it is left out.
//!
//! A line of the CSV is a transaction: the claim's number, `report` or `paid`, the accident year,
//! the calendar year and the amount. A report has the amount 0, or none.

#[allow(dead_code)]
#[path = "csv_set.rs"]
mod csv_set;

use pardesul::{Journal, TriangleSet};
use std::error::Error;
use std::fmt::Display;
use std::io::{self, Write};
use std::path::Path;
use std::str::FromStr;
use std::{env, fs};

fn main() -> Result<(), Box<dyn Error>> {
    let words: Vec<String> = env::args().skip(1).collect();
    let words: Vec<&str> = words.iter().map(String::as_str).collect();
    Ok(io::stdout().write_all(&made(&words)?)?)
}

/// What is written for these words.
pub fn made(words: &[&str]) -> Result<Vec<u8>, Box<dyn Error>> {
    match words {
        [file, m, rest @ ..] if rest.len() <= 3 => {
            csv_set::written(read_set(Path::new(file), m)?, rest)
        }
        _ => Err("usage: journal_set FILE M [METHOD BASIS] [LINE]".into()),
    }
}

/// The set of a journal, on line 0; where a transaction is refused, its line is named.
pub fn read_set(file: &Path, m: &str) -> Result<TriangleSet, Box<dyn Error>> {
    let named = |error: &dyn Display| format!("{}: {error}", file.display());
    let text = fs::read_to_string(file).map_err(|error| named(&error))?;
    let journal = journal(&text).map_err(|error| named(&error))?;
    let m = number(m)?;
    journal
        .to_set(m)
        .map_err(|refusal| match first_refused(&journal, m) {
            Some(line) => named(&format!("line {line}: {refusal}")).into(),
            None => refusal.into(),
        })
}

/// The first line with which the journal is refused; none where it is refused without lines.
fn first_refused(journal: &Journal, m: usize) -> Option<usize> {
    let lines = journal.bytes().len() / 16;
    let up_to = |line: usize| Journal::from_bytes(&journal.bytes()[..16 * line]);
    let first = (0..=lines).find(|&line| up_to(line).replay(m).is_err());
    first.filter(|&line| line > 0)
}

/// The journal in a text.
fn journal(text: &str) -> Result<Journal, String> {
    let mut journal = Journal::new();
    for (at, line) in (1..).zip(text.lines()) {
        add(&mut journal, line).map_err(|error| format!("line {at}: {error}"))?;
    }
    Ok(journal)
}

/// Adds the transaction of a line.
fn add(journal: &mut Journal, line: &str) -> Result<(), String> {
    let fields: Vec<&str> = line.split(',').map(str::trim).collect();
    let (&[claim, kind, accident, calendar], amount) = (match &fields[..] {
        [head @ .., amount] if fields.len() == 5 => (head, *amount),
        head => (head, ""),
    }) else {
        return Err(format!("{} fields, and not 5", fields.len()));
    };
    let (claim, accident, calendar) = (number(claim)?, number(accident)?, number(calendar)?);
    match (kind, amount) {
        ("report", "" | "0") => journal.report(claim, accident, calendar),
        ("report", _) => return Err(format!("a report has no amount, and not {amount}")),
        ("paid", _) => journal.pay(claim, accident, calendar, number(amount)?),
        _ => return Err(format!("'{kind}' is neither report nor paid")),
    };
    Ok(())
}

/// The number of a word.
fn number<T: FromStr<Err: Display>>(word: &str) -> Result<T, String> {
    word.parse().map_err(|error| format!("'{word}': {error}"))
}
