//! Shares, ultimates and delays.

use crate::{calls, Refusal, TriangleSet};

/// Shares in billionths by delay, and ultimates by accident year: each list has m numbers.
#[derive(Clone, Debug, PartialEq, Eq)]
pub struct Shares {
    /// The set's line of cover.
    pub line: u64,
    /// Shares of counts by reporting delay.
    pub b: Vec<i64>,
    /// Ultimate counts, year 1 first.
    pub n: Vec<i64>,
    /// Shares of payments by delay.
    pub q: Vec<i64>,
    /// The same up to each delay.
    pub g: Vec<i64>,
    /// Ultimate payments, year 1 first.
    pub u: Vec<i64>,
}

/// The chain ladder of counts and paid of a file.
///
/// # Errors
/// Refuses with 1 to 5 and 9 to 11.
pub fn shares(file: &[u8], m: usize) -> Result<Shares, Refusal> {
    let (mut line, [mut b, mut n, mut q, mut g, mut u]) = (0, [[0; 20]; 5]);
    Refusal::of(calls::shares(
        file, m, &mut line, &mut b, &mut n, &mut q, &mut g, &mut u,
    ))?;
    let [b, n, q, g, u] = [b, n, q, g, u].map(|list| list[..m].to_vec());
    Ok(Shares {
        line,
        b,
        n,
        q,
        g,
        u,
    })
}

/// The delays of a set, m of them.
#[derive(Clone, Debug, PartialEq, Eq)]
pub struct Delays {
    /// The set's line of cover.
    pub line: u64,
    /// The delays in billionths, by payment delay; one may be negative.
    pub p: Vec<i64>,
}

/// The delays of a file.
///
/// # Errors
/// Refuses with 1 to 5 and 9 to 12.
pub fn delays(file: &[u8], m: usize) -> Result<Delays, Refusal> {
    let (mut line, mut p) = (0, [0; 20]);
    Refusal::of(calls::delays(file, m, &mut line, &mut p))?;
    let p = p[..m].to_vec();
    Ok(Delays { line, p })
}

impl TriangleSet {
    /// The chain ladder of this set, as [`shares`] has it of the set's file.
    ///
    /// ```
    /// use pardesul::{Triangle, TriangleSet};
    ///
    /// let counts = Triangle::from_rows(&[&[80, 20], &[90]]);
    /// let paid = Triangle::from_rows(&[&[600, 400], &[660]]);
    /// let shares = TriangleSet { m: 2, line: 0, counts, paid, incurred: None }.shares()?;
    /// assert_eq!((shares.n, shares.u), (vec![100, 112], vec![1_000, 1_100]));
    /// # Ok::<(), pardesul::Refusal>(())
    /// ```
    ///
    /// # Errors
    /// Refuses with 1, 3, 5 and 9 to 11.
    pub fn shares(&self) -> Result<Shares, Refusal> {
        shares(&self.to_file()?, self.m)
    }

    /// The delays of this set, as [`delays`] has them of the set's file.
    ///
    /// ```
    /// use pardesul::{Triangle, TriangleSet};
    ///
    /// let counts = Triangle::from_rows(&[&[80, 20], &[90]]);
    /// let paid = Triangle::from_rows(&[&[600, 400], &[660]]);
    /// let set = TriangleSet { m: 2, line: 0, counts, paid, incurred: None };
    /// assert_eq!(set.delays()?.p, [750_000_000, 312_500_000]);
    /// # Ok::<(), pardesul::Refusal>(())
    /// ```
    ///
    /// # Errors
    /// Refuses with 1, 3, 5 and 9 to 12.
    pub fn delays(&self) -> Result<Delays, Refusal> {
        delays(&self.to_file()?, self.m)
    }
}
