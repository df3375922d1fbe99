//! A set's file with its records in the writer's order: `ordered_set FILE M` reads the file of M
//! accident years, its records in any order, and writes the set's file to standard output, on the
//! same line of cover. Files of equal sets then are equal, byte for byte.

use pardesul::TriangleSet;
use std::error::Error;
use std::io::{self, Write};
use std::path::Path;
use std::{env, fs};

fn main() -> Result<(), Box<dyn Error>> {
    let words: Vec<String> = env::args().skip(1).collect();
    let [file, m] = &words[..] else {
        return Err("usage: ordered_set FILE M".into());
    };
    Ok(io::stdout().write_all(&ordered(Path::new(file), m)?)?)
}

/// The file of the set that a file holds.
pub fn ordered(file: &Path, m: &str) -> Result<Vec<u8>, Box<dyn Error>> {
    let bytes = fs::read(file).map_err(|error| format!("{}: {error}", file.display()))?;
    let m = m.parse().map_err(|error| format!("{m}: {error}"))?;
    Ok(TriangleSet::read(&bytes, m)?.to_file()?)
}
