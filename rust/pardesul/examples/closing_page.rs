//! The closing page of triangles in CSV: `closing_page FOLDER METHOD BASIS` reads the folder as
//! `csv_set` does, and prints the page of its set.

#[allow(dead_code)]
#[path = "csv_set.rs"]
mod csv_set;

use pardesul::{Basis, Method};
use std::env;
use std::error::Error;
use std::io::{self, Write};
use std::path::Path;

fn main() -> Result<(), Box<dyn Error>> {
    let words: Vec<String> = env::args().skip(1).collect();
    let [folder, method, basis] = &words[..] else {
        return Err("usage: closing_page FOLDER METHOD BASIS".into());
    };
    let page = page(Path::new(folder), method, basis)?;
    Ok(io::stdout().write_all(page.as_bytes())?)
}

/// The page of the set of a folder, under a method and a basis by their numbers.
pub fn page(folder: &Path, method: &str, basis: &str) -> Result<String, Box<dyn Error>> {
    let number = |word: &str| {
        word.parse::<u64>()
            .map_err(|error| format!("{word}: {error}"))
    };
    let method = Method::try_from(number(method)?)?;
    let basis = Basis::try_from(number(basis)?)?;
    Ok(csv_set::read_folder(folder)?.closing_page(method, basis)?)
}
