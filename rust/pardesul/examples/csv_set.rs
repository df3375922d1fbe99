//! A set's file from triangles in CSV: `csv_set FOLDER [METHOD BASIS] [LINE]` reads `counts.csv`,
//! `paid.csv` and, where it is there, `incurred.csv` of the folder, and writes the set's file to
//! standard output; with a method and a basis it writes an input of `closing`, which has a first
//! line before the file. LINE is the set's line of cover, 0 to 5, and 0 where it is left out.
//!
//! A line of the CSV is an accident year, with its delays across; cells past the diagonal are empty
//! or left out.

use pardesul::{Triangle, TriangleSet};
use std::error::Error;
use std::io::{self, Write};
use std::path::Path;
use std::{env, fs};

fn main() -> Result<(), Box<dyn Error>> {
    let words: Vec<String> = env::args().skip(1).collect();
    let words: Vec<&str> = words.iter().map(String::as_str).collect();
    Ok(io::stdout().write_all(&made(&words)?)?)
}

/// What is written for these words.
pub fn made(words: &[&str]) -> Result<Vec<u8>, Box<dyn Error>> {
    match words {
        [folder, rest @ ..] if rest.len() <= 3 => written(read_folder(Path::new(folder))?, rest),
        _ => Err("usage: csv_set FOLDER [METHOD BASIS] [LINE]".into()),
    }
}

/// What is written of a set, where METHOD and BASIS, LINE, both or neither follow the words that
/// name it.
pub fn written(mut set: TriangleSet, words: &[&str]) -> Result<Vec<u8>, Box<dyn Error>> {
    let (first_line, line) = match words {
        [method, basis, line @ ..] => (format!("{} {method} {basis}\n", set.m), line),
        line => (String::new(), line),
    };
    if let [line] = line {
        set.line = line.parse().map_err(|error| format!("{line}: {error}"))?;
    }
    Ok([first_line.as_bytes(), &set.to_file()?].concat())
}

/// The set of a folder, on line 0; counts say how many accident years there are.
pub fn read_folder(folder: &Path) -> Result<TriangleSet, Box<dyn Error>> {
    let text = |name: &str| {
        let path = folder.join(name);
        fs::read_to_string(&path).map_err(|error| format!("{}: {error}", path.display()))
    };
    let counts = text("counts.csv")?;
    let m = counts.lines().count();
    let incurred = match folder.join("incurred.csv").exists() {
        true => Some(triangle("incurred.csv", &text("incurred.csv")?, m)?),
        false => None,
    };
    Ok(TriangleSet {
        m,
        line: 0,
        counts: triangle("counts.csv", &counts, m)?,
        paid: triangle("paid.csv", &text("paid.csv")?, m)?,
        incurred,
    })
}

/// The triangle of m accident years in a text.
fn triangle(name: &str, text: &str, m: usize) -> Result<Triangle, String> {
    if m > 20 || text.lines().count() != m {
        let lines = text.lines().count();
        return Err(format!(
            "{name} has {lines} lines, and counts.csv {m}: 2 to 20 and as many"
        ));
    }
    let mut triangle = Triangle::zero();
    for (year, line) in (1..).zip(text.lines()) {
        let cells = line.trim_end_matches([',', ' ', '\r']).split(',');
        let values: Result<Vec<i64>, _> = cells.map(|cell| cell.trim().parse()).collect();
        let values = values.map_err(|error| format!("{name}, line {year}: {error}"))?;
        let (found, wanted) = (values.len(), m - year + 1);
        if found != wanted {
            return Err(format!(
                "{name}, line {year}: {found} cells, and not {wanted}"
            ));
        }
        for (delay, value) in values.into_iter().enumerate() {
            triangle.set(year, delay, value);
        }
    }
    Ok(triangle)
}
