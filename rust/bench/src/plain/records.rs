//! Triangle records: the reader and the writer.

use std::mem::replace;
use std::ops::RangeInclusive;

/// The line of cover of a set, and its triangles, counts, paid and incurred; cell (i,j) at
/// 20 × (i-1) + j.
pub struct Set {
    pub m: usize,
    pub line: u64,
    pub has_incurred: bool,
    pub triangles: [[i64; 400]; 3],
}

impl Set {
    /// No years, and zeros.
    pub fn zero() -> Set {
        Set {
            m: 0,
            line: 0,
            has_incurred: false,
            triangles: [[0; 400]; 3],
        }
    }
}

/// The values that each kind may have.
pub const RANGES: [RangeInclusive<i64>; 3] = [
    0..=10_000_000,
    0..=10_000_000_000,
    -10_000_000_000..=10_000_000_000,
];

fn kind(record: &[u8]) -> usize {
    usize::from(record[0])
}

fn place(record: &[u8]) -> usize {
    20 * (usize::from(record[1]) - 1) + usize::from(record[2])
}

fn value(record: &[u8]) -> i64 {
    i64::from_le_bytes(record[8..16].try_into().unwrap())
}

fn is_well_formed(record: &[u8], m: usize, kinds: usize, line: u8) -> bool {
    let (year, delay) = (usize::from(record[1]), usize::from(record[2]));
    kind(record) < kinds && year >= 1 && year + delay <= m && record[3..8] == [line, 0, 0, 0, 0]
}

/// Questions 1 to 5, and the set.
pub fn read_set(file: &[u8], m: usize) -> Result<Set, u64> {
    if !(2..=20).contains(&m) {
        return Err(1);
    }
    let has_incurred = file.len() == 24 * m * (m + 1);
    if !has_incurred && file.len() != 16 * m * (m + 1) {
        return Err(2);
    }
    let kinds = if has_incurred { 3 } else { 2 };
    let records = || file.chunks_exact(16);
    // All records are on the line of the first.
    let line = file[3];
    if line > 5 || !records().all(|record| is_well_formed(record, m, kinds, line)) {
        return Err(3);
    }
    // There are as many records as cells, so each cell is there once where none is there twice.
    let mut seen = [[false; 400]; 3];
    if records().any(|record| replace(&mut seen[kind(record)][place(record)], true)) {
        return Err(4);
    }
    if !records().all(|record| RANGES[kind(record)].contains(&value(record))) {
        return Err(5);
    }
    let mut triangles = [[0; 400]; 3];
    for record in records() {
        triangles[kind(record)][place(record)] = value(record);
    }
    Ok(Set {
        m,
        line: line.into(),
        has_incurred,
        triangles,
    })
}

/// Questions 1, 3 (of the line), 5 and 7, and the set's records at the front of `out`.
pub fn write_set(set: &Set, out: &mut [u8]) -> Result<(), u64> {
    let (m, line) = (set.m, set.line);
    if !(2..=20).contains(&m) {
        return Err(1);
    }
    if line > 5 {
        return Err(3);
    }
    let kinds = if set.has_incurred { 3 } else { 2 };
    let cells = || (1..=m).flat_map(|i| (0..=m - i).map(move |j| (i, j)));
    let value = |kind: usize, (i, j)| set.triangles[kind][20 * (i - 1) + j];
    for (kind, range) in RANGES.iter().enumerate().take(kinds) {
        if !cells().all(|cell| range.contains(&value(kind, cell))) {
            return Err(5);
        }
    }
    if out.len() < 8 * m * (m + 1) * kinds {
        return Err(7);
    }
    let cells = (0..kinds).flat_map(|kind| cells().map(move |cell| (kind, cell)));
    for (record, (kind, (i, j))) in out.chunks_exact_mut(16).zip(cells) {
        record[..8].copy_from_slice(&[kind as u8, i as u8, j as u8, line as u8, 0, 0, 0, 0]);
        record[8..].copy_from_slice(&value(kind, (i, j)).to_le_bytes());
    }
    Ok(())
}
