//! Triangle records: the reader and the writer.

use crate::plain::Set;

/// The least value of each kind, and how far the largest is above it.
const LEAST: [i64; 3] = [0, 0, -10_000_000_000];
const SPAN: [u64; 3] = [10_000_000, 10_000_000_000, 20_000_000_000];

fn is_outside(kind: usize, value: i64) -> bool {
    value.wrapping_sub(LEAST[kind]) as u64 > SPAN[kind]
}

/// Eight bytes as a number, least byte first.
pub fn word(half: &[u8]) -> u64 {
    u64::from_le_bytes(half.try_into().unwrap())
}

/// Questions 1 to 5, and the set, with zeros outside its cells; a refusal leaves anything in it.
pub fn read_set(file: &[u8], m: usize, set: &mut Set) -> Result<(), u64> {
    *set = Set::zero();
    fill(file, m, set)
}

/// The same, into a set of zeros.
pub fn fill(file: &[u8], m: usize, set: &mut Set) -> Result<(), u64> {
    if !(2..=20).contains(&m) {
        return Err(1);
    }
    set.m = m;
    set.has_incurred = file.len() == 24 * m * (m + 1);
    if !set.has_incurred && file.len() != 16 * m * (m + 1) {
        return Err(2);
    }
    let kinds = if set.has_incurred { 3 } else { 2 };
    // All records are on the line of the first.
    set.line = file[3].into();
    if set.line > 5 {
        return Err(3);
    }
    let line = set.line << 24;
    // A bit for each delay of each row, 20 rows for each kind.
    let mut seen = [0u32; 60];
    let (mut twice, mut is_any_outside) = (0, false);
    let cells = set.triangles.as_flattened_mut();
    for record in file.as_chunks::<16>().0 {
        let (head, value) = (word(&record[..8]) ^ line, word(&record[8..]) as i64);
        // What another line leaves of itself, and the spare bytes, count as the upper bytes of the
        // delay, which they put outside.
        let [kind, i, j] = [head & 255, head >> 8 & 255, head >> 16].map(|field| field as usize);
        if kind >= kinds || i == 0 || i + j > m {
            return Err(3);
        }
        let (row, bit) = (20 * kind + i - 1, 1 << j);
        twice |= seen[row] & bit;
        seen[row] |= bit;
        is_any_outside |= is_outside(kind, value);
        cells[20 * row + j] = value;
    }
    // There are as many records as cells, so each cell is there once where none is there twice.
    if twice != 0 {
        return Err(4);
    }
    if is_any_outside {
        return Err(5);
    }
    Ok(())
}

/// Questions 1, 3 (of the line), 5 and 7, and the set's records at the front of `out`.
pub fn write_set(set: &Set, out: &mut [u8]) -> Result<(), u64> {
    let (m, line) = (set.m, set.line);
    if !(2..=20).contains(&m) {
        return Err(1);
    }
    if line > 5 {
        return Err(3);
    }
    let triangles = &set.triangles[..if set.has_incurred { 3 } else { 2 }];
    let years = |kind: usize| triangles[kind].as_chunks::<20>().0.iter().take(m);
    for kind in 0..triangles.len() {
        for (year, known) in years(kind).zip((1..=m).rev()) {
            if year[..known].iter().any(|&value| is_outside(kind, value)) {
                return Err(5);
            }
        }
    }
    let length = 8 * m * (m + 1) * triangles.len();
    let mut records = out.get_mut(..length).ok_or(7u64)?;
    for kind in 0..triangles.len() {
        for (year, i) in years(kind).zip(1..) {
            let (row, later) = records.split_at_mut(16 * (m + 1 - i));
            for ((record, value), j) in row.as_chunks_mut::<16>().0.iter_mut().zip(year).zip(0..) {
                let head: u64 = kind as u64 | (i as u64) << 8 | j << 16 | line << 24;
                record[..8].copy_from_slice(&head.to_le_bytes());
                record[8..].copy_from_slice(&value.to_le_bytes());
            }
            records = later;
        }
    }
    Ok(())
}
