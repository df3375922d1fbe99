//! How large each crate is, and how long the gate takes.

use crate::{lines_of, root};
use std::collections::BTreeMap;
use std::fs;
use std::io;
use std::path::{Path, PathBuf};

const HEAD: &str = "\
## Figures

Lines of code (`src`), of definitions and laws (`specs`) and of proofs (`proofs`), and the number of
must-fail edits; a test counts them again. Seconds are those of the check under the last kit whose
`rt ci` told them, `rattle-kit-5b-plain`, which checked several crates at a time; a crate that is
newer, or was cut since, has none or those of the whole. The parts of the gate are those of the last
run whose times were kept, of that kit too.

| crate | code | specs | proofs | must-fail edits | seconds |
|---|---|---|---|---|---|
";

/// How long the check of each crate took, with a kit whose `rt ci` said so, and each part of the
/// gate.
#[derive(Default)]
pub struct Seconds {
    crates: BTreeMap<String, u64>,
    parts: Vec<(String, u64)>,
}

impl Seconds {
    /// Those that the text has.
    pub fn written(text: &str) -> Seconds {
        let mut seconds = Seconds::default();
        for line in lines_of(text, "Figures") {
            let cells: Vec<&str> = line.split('|').map(str::trim).collect();
            match cells[..] {
                ["", "all", .., ""] => {}
                ["", name, _, _, _, _, taken, ""] => {
                    seconds.crates.extend(entry(name, taken));
                }
                ["", name, taken, ""] => seconds.parts.extend(entry(name, taken)),
                _ => {}
            }
        }
        seconds
    }

    /// Takes over the parts of the gate's last run, where its times are there.
    pub fn update(&mut self) {
        if let Ok(times) = fs::read_to_string(root().join("rust/target/gate/times")) {
            let parts = times.lines().filter_map(|line| {
                let (taken, name) = line.trim().split_once(" s  ")?;
                entry(name, taken)
            });
            self.parts = parts.collect();
        }
    }
}

fn entry(name: &str, taken: &str) -> Option<(String, u64)> {
    Some((name.to_string(), taken.parse().ok()?))
}

/// The section. What no run of the gate has timed yet has no seconds.
pub fn section(seconds: &Seconds) -> io::Result<String> {
    let mut text = HEAD.to_string();
    let (mut all, mut all_taken) = ([0; 4], 0);
    for line in fs::read_to_string(root().join("crates.txt"))?.lines() {
        let name = line.split([' ', ':']).next().unwrap_or(line);
        let folder = root().join("crates").join(name);
        let counts = [
            lines(&folder.join("src"), "rt")?,
            lines(&folder.join("specs"), "antt")?,
            lines(&folder.join("proofs"), "antt")?,
            files(&folder.join("must-fail"), "edit")?.len(),
        ];
        let taken = seconds.crates.get(name).copied();
        text += &row(name, &counts, taken);
        for (sum, count) in all.iter_mut().zip(counts) {
            *sum += count;
        }
        all_taken += taken.unwrap_or_default();
    }
    text += &row("all", &all, Some(all_taken));
    if seconds.parts.is_empty() {
        return Ok(text);
    }
    text += "\n| part of the gate | seconds |\n|---|---|\n";
    for (name, taken) in &seconds.parts {
        text += &row(name, &[], Some(*taken));
    }
    let all = seconds.parts.iter().map(|(_, taken)| taken).sum();
    Ok(text + &row("all", &[], Some(all)))
}

fn row(name: &str, counts: &[usize], seconds: Option<u64>) -> String {
    let counts: String = counts.iter().map(|count| format!("{count} | ")).collect();
    let seconds = seconds.map_or_else(String::new, |seconds| seconds.to_string());
    format!("| {name} | {counts}{seconds} |\n")
}

/// The lines of all files with this ending.
fn lines(folder: &Path, ending: &str) -> io::Result<usize> {
    let mut sum = 0;
    for file in files(folder, ending)? {
        sum += fs::read_to_string(file)?.lines().count();
    }
    Ok(sum)
}

/// The files with this ending in a folder, which may be missing, and in those inside it.
fn files(folder: &Path, ending: &str) -> io::Result<Vec<PathBuf>> {
    let mut found = Vec::new();
    if folder.exists() {
        for entry in fs::read_dir(folder)? {
            let path = entry?.path();
            if path.is_dir() {
                found.extend(files(&path, ending)?);
            } else if path.extension().is_some_and(|own| own == ending) {
                found.push(path);
            }
        }
    }
    Ok(found)
}
