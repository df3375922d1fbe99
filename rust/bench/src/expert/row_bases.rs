//! Row bases.

use super::nearest_of_product;
use super::shares::{incurred_ultimates, Estimates};
use crate::plain::{RowBases, Set};

/// Questions 13 and 14 of the first m years, and the row bases.
pub fn row_bases(set: &Set, m: usize, estimates: &Estimates, method: u64) -> Result<RowBases, u64> {
    let u = &estimates.paid.ultimates;
    let mut bases = RowBases {
        v: *u,
        leftovers: [0; 20],
    };
    if method == 0 {
        return Ok(bases);
    }
    let w = incurred_ultimates(set, m)?;
    for at in 0..m {
        let latest = estimates.paid.latest[at];
        let (factor, upper, lower) = match method {
            1 => (u[0], w[at], w[0]),
            _ => (u[at], w[at] - latest, u[at] - latest),
        };
        if lower == 0 {
            bases.leftovers[at] = upper;
            continue;
        }
        let base = nearest_of_product(factor, upper, lower);
        if base.unsigned_abs() > 200_000_000_000_000 {
            return Err(14);
        }
        bases.v[at] = base as i64;
    }
    Ok(bases)
}
