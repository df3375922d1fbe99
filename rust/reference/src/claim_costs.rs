//! 01, Claim-cost card.

use crate::big::Big;
use crate::records::{read_set, Refusal};
use crate::shares::{estimates, signed_64};

/// How a year's mean cost stands to that of row 1: it is that row, has U(i) = 0, or has a ratio.
#[derive(Clone, Copy, Debug, PartialEq)]
pub enum Inflation {
    BaseYear,
    NoPaymentsYet,
    Ratio(f64),
}

/// Document 01's claim-cost card, with the line of the set.
#[derive(Clone, Debug, PartialEq)]
pub struct ClaimCosts {
    pub line: u64,
    pub mu: f64,
    pub factors: [f64; 20],
    pub inflations: [Inflation; 20],
}

/// Questions 1 to 5 and 9 to 11, and the claim costs.
pub fn claim_costs(file: &[u8], m: u64) -> Result<ClaimCosts, Refusal> {
    let set = read_set(file, m)?;
    let estimates = estimates(&set)?;
    // U(i) / N(i); row 1 has mu.
    let mean_cost = |i: usize| quotient(&estimates.u[i - 1], &estimates.n[i - 1]);
    let mu = mean_cost(1);
    // f(j) = B(j) / A(j) of paid stands at place j - 1.
    let mut factors = [0.0; 20];
    for j in 1..set.m {
        factors[j - 1] = quotient(&estimates.paid.b(j), &estimates.paid.a(j));
    }
    let mut inflations = [Inflation::NoPaymentsYet; 20];
    inflations[0] = Inflation::BaseYear;
    for i in 2..=set.m {
        if !estimates.u[i - 1].is_zero() {
            // A division of two quotients, rounded once more.
            inflations[i - 1] = Inflation::Ratio(mean_cost(i) / mu);
        }
    }
    Ok(ClaimCosts {
        line: set.line,
        mu,
        factors,
        inflations,
    })
}

/// The nearest binary64 to a / b, which is one division, as both are binary64 numbers themselves.
fn quotient(a: &Big, b: &Big) -> f64 {
    held_exactly(a) / held_exactly(b)
}

fn held_exactly(value: &Big) -> f64 {
    assert!(
        value.abs() < Big::from(1i64 << 53),
        "{value} is not held exactly"
    );
    signed_64(value) as f64
}
