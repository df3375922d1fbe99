//! Claim-cost card.

use super::read_set;
use super::shares::estimates;

/// A year's inflation against the first year.
#[derive(Clone, Copy, Debug, PartialEq)]
pub enum Inflation {
    BaseYear,
    NoPaymentsYet,
    Ratio(f64),
}

/// The line of the set, mu, f(j) at place j - 1, and year i's inflation at place i - 1.
#[derive(Clone, Debug, PartialEq)]
pub struct ClaimCosts {
    pub line: u64,
    pub mu: f64,
    pub factors: [f64; 20],
    pub inflations: [Inflation; 20],
}

/// Questions 1 to 5 and 9 to 11, and the claim costs.
pub fn claim_costs(file: &[u8], m: usize) -> Result<ClaimCosts, u64> {
    let set = read_set(file, m)?;
    let estimates = estimates(&set)?;
    let (n, u) = (estimates.shares.n, estimates.shares.u);
    let mean = |i: usize| u[i - 1] as f64 / n[i - 1] as f64;
    let mut costs = ClaimCosts {
        line: set.line,
        mu: mean(1),
        factors: [0.0; 20],
        inflations: [Inflation::NoPaymentsYet; 20],
    };
    for j in 1..m {
        costs.factors[j - 1] = estimates.paid.b[j] as f64 / estimates.paid.a[j] as f64;
    }
    costs.inflations[0] = Inflation::BaseYear;
    for i in 2..=m {
        if u[i - 1] != 0 {
            costs.inflations[i - 1] = Inflation::Ratio(mean(i) / costs.mu);
        }
    }
    Ok(costs)
}
