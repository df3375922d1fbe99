//! The reader, and the writer on what it read.

use super::{fixed, numbered, LentLine};
use crate::difference::{hexadecimal, same, same_list, Difference};
use crate::memory::Memory;
use crate::Counts;
use pardesul::{calls, Triangle, TriangleSet};
use reference::generate::{file as file_of, Case};
use reference::{read_set, Set};

/// What is counted of accepted files: those on line n at place n.
const LINES: [&str; 6] = ["line 0", "line 1", "line 2", "line 3", "line 4", "line 5"];

pub fn compare(seed: u64, case: &Case, counts: &mut Counts) -> Result<bool, Difference> {
    let found = compare_file(seed, &case.file, case.m)?;
    for (line, name) in (0..).zip(LINES) {
        counts.count(name, found == Some(line));
    }
    Ok(found.is_some())
}

/// The reader on any file; says its line where it was accepted. What was read is written, in the
/// writer's order whatever the file's is.
pub fn compare_file(seed: u64, file: &[u8], m: u64) -> Result<Option<u64>, Difference> {
    let text = || format!("seed {seed}, m {m}, file {}", hexadecimal(file));
    let wanted = read_set(file, m);
    let m = m as usize;

    let before = seed & 1 == 1;
    let mut has_incurred = before;
    let mut memory = Memory::new(seed, &[400; 3]);
    let mut line = LentLine::new(seed);
    let [counts, paid, incurred] = memory.lists().map(fixed);
    let refusal = calls::read_set(
        file,
        m,
        line.lent(),
        &mut has_incurred,
        counts,
        paid,
        incurred,
    );
    line.beside("read", refusal, &wanted, |set| set.line, text)?;
    match &wanted {
        Ok(set) => {
            let lists: [&[i64]; 3] = [&set.counts, &set.paid, &set.incurred];
            same("read, flag", has_incurred, set.has_incurred, text)?;
            memory.holds("read", Some(&lists), text)?;
            let [counts, paid, incurred] = memory.lists().map(fixed);
            let (line, mut out) = (*line.lent(), vec![0; file.len()]);
            let refusal = calls::write_set(m, line, has_incurred, counts, paid, incurred, &mut out);
            same("read and written, refusal", refusal, 0, text)?;
            same_list("read and written", &out, &file_of(set), text)?;
        }
        Err(_) => {
            same("read, flag", has_incurred, before, text)?;
            memory.holds("read", None, text)?;
        }
    }

    let found = numbered(TriangleSet::read(file, m));
    let accepted = wanted.as_ref().ok().map(|set| set.line);
    let wanted = wanted.map(|set| natural(&set));
    same("TriangleSet::read", found, wanted, text)?;
    Ok(accepted)
}

/// The set in the types of `pardesul`.
pub fn natural(set: &Set) -> TriangleSet {
    TriangleSet {
        m: set.m,
        line: set.line,
        counts: Triangle::new(set.counts),
        paid: Triangle::new(set.paid),
        incurred: set.has_incurred.then(|| Triangle::new(set.incurred)),
    }
}
