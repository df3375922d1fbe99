//! The claim costs.

use crate::{calls, Refusal, TriangleSet};

/// A year's inflation against year 1.
#[derive(Clone, Copy, Debug, PartialEq)]
pub enum Inflation {
    /// Year 1.
    BaseYear,
    /// The year's ultimate payments are zero.
    NoPaymentsYet,
    /// The year's mean cost divided by mu.
    Ratio(f64),
}

/// The claim costs of a file.
#[derive(Clone, Debug, PartialEq)]
pub struct ClaimCosts {
    /// The set's line of cover.
    pub line: u64,
    /// The mean cost of year 1.
    pub mu: f64,
    /// The factors of paid, f(1) to f(m - 1).
    pub factors: Vec<f64>,
    /// The inflation of each year, year 1 first.
    pub inflations: Vec<Inflation>,
}

/// The claim costs of a file.
///
/// # Errors
/// Refuses with 1 to 5 and 9 to 11.
pub fn claim_costs(file: &[u8], m: usize) -> Result<ClaimCosts, Refusal> {
    let (mut line, mut mu) = (0, 0.0);
    let (mut factors, mut kinds, mut ratios) = ([0.0; 20], [0; 20], [0.0; 20]);
    Refusal::of(calls::claim_costs(
        file,
        m,
        &mut line,
        &mut mu,
        &mut factors,
        &mut kinds,
        &mut ratios,
    ))?;
    let inflation = |year: usize| match kinds[year] {
        0 => Inflation::BaseYear,
        1 => Inflation::NoPaymentsYet,
        _ => Inflation::Ratio(ratios[year]),
    };
    Ok(ClaimCosts {
        line,
        mu,
        factors: factors[..m - 1].to_vec(),
        inflations: (0..m).map(inflation).collect(),
    })
}

impl TriangleSet {
    /// The claim costs of this set, as [`claim_costs`] has them of the set's file.
    ///
    /// ```
    /// use pardesul::{Inflation, Triangle, TriangleSet};
    ///
    /// let counts = Triangle::from_rows(&[&[80, 20], &[90]]);
    /// let paid = Triangle::from_rows(&[&[600, 400], &[660]]);
    /// let costs = TriangleSet { m: 2, line: 0, counts, paid, incurred: None }.claim_costs()?;
    /// assert_eq!((costs.mu, costs.factors), (10.0, vec![1_000.0 / 600.0]));
    /// let ratio = Inflation::Ratio(1_100.0 / 112.0 / 10.0);
    /// assert_eq!(costs.inflations, [Inflation::BaseYear, ratio]);
    /// # Ok::<(), pardesul::Refusal>(())
    /// ```
    ///
    /// # Errors
    /// Refuses with 1, 3, 5 and 9 to 11.
    pub fn claim_costs(&self) -> Result<ClaimCosts, Refusal> {
        claim_costs(&self.to_file()?, self.m)
    }
}
