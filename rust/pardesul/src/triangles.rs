//! Triangles, and sets of them as files.

use crate::{calls, Refusal};
use std::fmt;

/// The most accident years, and the most delays.
const MOST: usize = 20;

/// A run-off triangle of at most 20 accident years: a value for each accident year from 1 on and
/// each delay from 0 on.
///
/// ```
/// use pardesul::Triangle;
///
/// let mut paid = Triangle::from_rows(&[&[600, 400], &[660]]);
/// paid.set(1, 1, 500);
/// assert_eq!(paid.get(1, 1), 500);
/// assert_eq!(paid.values()[20], 660);
/// ```
#[derive(Clone, PartialEq, Eq)]
pub struct Triangle {
    values: [i64; MOST * MOST],
}

impl Triangle {
    /// The triangle with these values: cell (i,j) at 20 × (i-1) + j.
    pub fn new(values: [i64; 400]) -> Triangle {
        Triangle { values }
    }

    /// The triangle of zeros.
    pub fn zero() -> Triangle {
        Triangle::new([0; 400])
    }

    /// The triangle with these rows, accident year 1 first, each from delay 0 on.
    ///
    /// # Panics
    /// Where there are more than 20 rows, or more than 20 values in one.
    pub fn from_rows(rows: &[&[i64]]) -> Triangle {
        let mut triangle = Triangle::zero();
        for (row, year) in rows.iter().zip(1..) {
            for (&value, delay) in row.iter().zip(0..) {
                triangle.set(year, delay, value);
            }
        }
        triangle
    }

    /// The value of accident year `year`, 1 to 20, at `delay`, 0 to 19.
    ///
    /// # Panics
    /// For another year or delay.
    pub fn get(&self, year: usize, delay: usize) -> i64 {
        self.values[place(year, delay)]
    }

    /// Sets the value of an accident year at a delay.
    ///
    /// # Panics
    /// As [`Triangle::get`] does.
    pub fn set(&mut self, year: usize, delay: usize, value: i64) {
        self.values[place(year, delay)] = value;
    }

    /// All values: cell (i,j) at 20 × (i-1) + j.
    pub fn values(&self) -> &[i64; 400] {
        &self.values
    }
}

/// Where a cell stands among the values.
fn place(year: usize, delay: usize) -> usize {
    assert!(
        (1..=MOST).contains(&year) && delay < MOST,
        "accident year {year}, delay {delay}"
    );
    MOST * (year - 1) + delay
}

impl fmt::Debug for Triangle {
    fn fmt(&self, f: &mut fmt::Formatter) -> fmt::Result {
        f.debug_list().entries(self.values.chunks(MOST)).finish()
    }
}

/// Counts and paid, with or without incurred, of m accident years and one line of cover.
///
/// The line tells sets of different cover apart. It is part of the set: each record of the set's
/// file carries it, and each answer has it beside its numbers, none of which hangs on it.
#[derive(Clone, Debug, PartialEq, Eq)]
pub struct TriangleSet {
    /// The number of accident years.
    pub m: usize,
    /// The line of cover, 0 to 5.
    pub line: u64,
    /// Reported claims, by accident year and reporting delay.
    pub counts: Triangle,
    /// Payments, by accident year and payment delay.
    pub paid: Triangle,
    /// Changes of the incurred amounts, by accident year and delay.
    pub incurred: Option<Triangle>,
}

impl TriangleSet {
    /// The set that a file holds, its records in any order; zeros stand outside the cells.
    ///
    /// # Errors
    /// Refuses with 1 to 5.
    pub fn read(file: &[u8], m: usize) -> Result<TriangleSet, Refusal> {
        let (mut counts, mut paid, mut incurred) = ([0; 400], [0; 400], [0; 400]);
        let (mut line, mut has_incurred) = (0, false);
        Refusal::of(calls::read_set(
            file,
            m,
            &mut line,
            &mut has_incurred,
            &mut counts,
            &mut paid,
            &mut incurred,
        ))?;
        Ok(TriangleSet {
            m,
            line,
            counts: Triangle::new(counts),
            paid: Triangle::new(paid),
            incurred: has_incurred.then(|| Triangle::new(incurred)),
        })
    }

    /// The length of the set's file in bytes; 0 where m is not 2 to 20.
    pub fn file_len(&self) -> usize {
        match (self.m, &self.incurred) {
            (2..=20, Some(_)) => 24 * self.m * (self.m + 1),
            (2..=20, None) => 16 * self.m * (self.m + 1),
            _ => 0,
        }
    }

    /// Writes the set's file to the front of `out`, where the bytes past it stay. Records go by
    /// kind (counts, paid, incurred), then accident year, then delay, and each carries the line.
    /// Values outside the cells are not looked at.
    ///
    /// # Errors
    /// Refuses with 1, 3, 5 and 7; with 3 where the line is above 5.
    pub fn write(&self, out: &mut [u8]) -> Result<(), Refusal> {
        let incurred = self.incurred.as_ref().map_or(&[0; 400], Triangle::values);
        Refusal::of(calls::write_set(
            self.m,
            self.line,
            self.incurred.is_some(),
            self.counts.values(),
            self.paid.values(),
            incurred,
            out,
        ))
    }

    /// The set's file, its records in the order of [`TriangleSet::write`]: two sets of one m have
    /// the same file just where their lines and cells are the same and both have incurred or
    /// neither.
    ///
    /// ```
    /// use pardesul::{Triangle, TriangleSet};
    ///
    /// let counts = Triangle::from_rows(&[&[80, 20], &[90]]);
    /// let paid = Triangle::from_rows(&[&[600, 400], &[660]]);
    /// let mut set = TriangleSet { m: 2, line: 0, counts, paid, incurred: None };
    /// let file = set.to_file()?;
    ///
    /// // The same records, the last one in front: read and written they are in order again.
    /// let mut other = file.clone();
    /// other.rotate_right(16);
    /// assert_ne!(other, file);
    /// assert_eq!(TriangleSet::read(&other, 2)?.to_file()?, file);
    ///
    /// // The same cells on another line are another set.
    /// set.line = 5;
    /// assert_ne!(set.to_file()?, file);
    /// assert_eq!(TriangleSet::read(&set.to_file()?, 2)?, set);
    ///
    /// set.paid.set(1, 1, -1);
    /// assert_eq!(set.to_file().unwrap_err().number(), 5);
    /// set.line = 6;
    /// assert_eq!(set.to_file().unwrap_err().number(), 3);
    /// # Ok::<(), pardesul::Refusal>(())
    /// ```
    ///
    /// # Errors
    /// Refuses with 1, 3 and 5.
    pub fn to_file(&self) -> Result<Vec<u8>, Refusal> {
        let mut out = vec![0; self.file_len()];
        self.write(&mut out)?;
        Ok(out)
    }
}
