//! 01, Triangle records: sets, their reader and their writer, whose order is that of 02, Job 2, and
//! the line of cover in each record, 02, Job 7.

use std::ops::RangeInclusive;

/// The number of the first question that got a no.
pub type Refusal = u64;

/// A triangle by value: cell (i,j) at 20 (i-1) + j.
pub type Values = [i64; 400];

/// Counts and paid, or all three, of a line of cover, with zeros outside the cells.
#[derive(Clone, Debug, PartialEq, Eq)]
pub struct Set {
    pub m: usize,
    pub line: u64,
    pub has_incurred: bool,
    pub counts: Values,
    pub paid: Values,
    pub incurred: Values,
}

impl Set {
    /// A set of zeros on line 0.
    pub fn empty(m: usize, has_incurred: bool) -> Set {
        Set {
            m,
            line: 0,
            has_incurred,
            counts: [0; 400],
            paid: [0; 400],
            incurred: [0; 400],
        }
    }

    /// The same cells on another line.
    pub fn on_line(&self, line: u64) -> Set {
        Set {
            line,
            ..self.clone()
        }
    }

    /// Kinds 0 and 1, or 0 to 2.
    pub fn kinds(&self) -> u8 {
        kinds(self.has_incurred)
    }

    /// The triangle of a kind.
    pub fn triangle(&self, kind: u8) -> &Values {
        match kind {
            0 => &self.counts,
            1 => &self.paid,
            _ => &self.incurred,
        }
    }

    pub fn triangle_mut(&mut self, kind: u8) -> &mut Values {
        match kind {
            0 => &mut self.counts,
            1 => &mut self.paid,
            _ => &mut self.incurred,
        }
    }
}

/// Where cell (i,j) stands among the values.
pub fn place(i: usize, j: usize) -> usize {
    20 * (i - 1) + j
}

/// Whether (i,j) is a cell of a set of m years.
pub fn is_cell(m: usize, i: usize, j: usize) -> bool {
    1 <= i && i <= m && j < m && i + j <= m
}

/// Every cell, by accident year, then delay.
pub fn cells(m: usize) -> impl Iterator<Item = (usize, usize)> {
    (1..=m).flat_map(move |i| (0..=m - i).map(move |j| (i, j)))
}

/// Whether there is such a line of cover: 0 to 5.
pub fn is_line(line: u64) -> bool {
    line <= 5
}

/// The values that a kind may have.
pub fn range(kind: u8) -> RangeInclusive<i64> {
    match kind {
        0 => 0..=10_000_000,
        1 => 0..=10_000_000_000,
        _ => -10_000_000_000..=10_000_000_000,
    }
}

fn kinds(has_incurred: bool) -> u8 {
    if has_incurred {
        3
    } else {
        2
    }
}

/// The length in bytes of a set's file: 16 for each cell of two or three triangles.
pub fn file_length(m: usize, has_incurred: bool) -> usize {
    let without = 16 * m * (m + 1);
    if has_incurred {
        without + without / 2
    } else {
        without
    }
}

/// Question 1.
pub fn question_1(m: u64) -> Result<usize, Refusal> {
    if (2..=20).contains(&m) {
        Ok(m as usize)
    } else {
        Err(1)
    }
}

/// One record of 16 bytes.
struct Record {
    kind: u8,
    i: usize,
    j: usize,
    line: u64,
    padding: [u8; 4],
    value: i64,
}

impl Record {
    /// Kind, i, j and the line in a byte each, four bytes of padding, and the value in eight.
    fn read(bytes: &[u8]) -> Record {
        Record {
            kind: bytes[0],
            i: usize::from(bytes[1]),
            j: usize::from(bytes[2]),
            line: u64::from(bytes[3]),
            padding: bytes[4..8].try_into().unwrap(),
            value: i64::from_le_bytes(bytes[8..16].try_into().unwrap()),
        }
    }

    fn write(&self) -> [u8; 16] {
        let mut bytes = [0; 16];
        bytes[0] = self.kind;
        bytes[1] = self.i as u8;
        bytes[2] = self.j as u8;
        bytes[3] = self.line as u8;
        bytes[4..8].copy_from_slice(&self.padding);
        bytes[8..16].copy_from_slice(&self.value.to_le_bytes());
        bytes
    }
}

/// Questions 1 to 5, and the set in a file.
pub fn read_set(file: &[u8], m: u64) -> Result<Set, Refusal> {
    let m = question_1(m)?;
    // Question 2.
    let has_incurred = file.len() == file_length(m, true);
    if !has_incurred && file.len() != file_length(m, false) {
        return Err(2);
    }
    let records: Vec<Record> = file.chunks_exact(16).map(Record::read).collect();
    // Question 3.
    let line = records[0].line;
    let well_formed = |record: &Record| {
        record.kind < kinds(has_incurred)
            && is_cell(m, record.i, record.j)
            && is_line(record.line)
            && record.line == line
            && record.padding == [0; 4]
    };
    if !records.iter().all(well_formed) {
        return Err(3);
    }
    // Question 4.
    let mut times = [[0; 400]; 3];
    for record in &records {
        times[usize::from(record.kind)][place(record.i, record.j)] += 1;
    }
    let once = |kind: u8| cells(m).all(|(i, j)| times[usize::from(kind)][place(i, j)] == 1);
    if !(0..kinds(has_incurred)).all(once) {
        return Err(4);
    }
    // Question 5.
    if !records
        .iter()
        .all(|record| range(record.kind).contains(&record.value))
    {
        return Err(5);
    }
    let mut set = Set::empty(m, has_incurred).on_line(line);
    for record in &records {
        set.triangle_mut(record.kind)[place(record.i, record.j)] = record.value;
    }
    Ok(set)
}

/// Questions 1, 3 (of the line), 5 and 7, and the set written by kind, then accident year, then
/// delay, each ascending; bytes past it, and all on a refusal, stay. Question 5 is put to the cells
/// alone.
pub fn write_set(
    m: u64,
    line: u64,
    has_incurred: bool,
    counts: &Values,
    paid: &Values,
    incurred: &Values,
    out: &mut [u8],
) -> Result<(), Refusal> {
    let m = question_1(m)?;
    // Question 3.
    if !is_line(line) {
        return Err(3);
    }
    let triangles = [counts, paid, incurred];
    let mut bytes = Vec::new();
    for kind in 0..kinds(has_incurred) {
        for (i, j) in cells(m) {
            let value = triangles[usize::from(kind)][place(i, j)];
            if !range(kind).contains(&value) {
                return Err(5);
            }
            let record = Record {
                kind,
                i,
                j,
                line,
                padding: [0; 4],
                value,
            };
            bytes.extend(record.write());
        }
    }
    // Question 7.
    if out.len() < bytes.len() {
        return Err(7);
    }
    out[..bytes.len()].copy_from_slice(&bytes);
    Ok(())
}
