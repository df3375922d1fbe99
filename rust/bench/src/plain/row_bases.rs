//! Row bases.

use super::nearest;
use super::records::Set;
use super::shares::{incurred_ultimates, Estimates};

/// V(i) and the leftovers, year i at place i - 1.
pub struct RowBases {
    pub v: [i64; 20],
    pub leftovers: [i64; 20],
}

/// Questions 13 and 14, and the row bases.
pub fn row_bases(set: &Set, estimates: &Estimates, method: u64) -> Result<RowBases, u64> {
    let u = estimates.shares.u;
    let mut bases = RowBases {
        v: u,
        leftovers: [0; 20],
    };
    if method == 0 {
        return Ok(bases);
    }
    let w = incurred_ultimates(set)?;
    for at in 0..set.m {
        let latest = estimates.paid.latest[at];
        let (factor, upper, lower) = match method {
            1 => (u[0], w[at], w[0]),
            _ => (u[at], w[at] - latest, u[at] - latest),
        };
        // U is at most 2 × 10^14, as C is at most 2 × 10^11 and g at least 10^6.
        if lower == 0 {
            bases.leftovers[at] = upper;
            continue;
        }
        let base = nearest(i128::from(factor) * i128::from(upper), i128::from(lower));
        if base.abs() > 200_000_000_000_000 {
            return Err(14);
        }
        bases.v[at] = base as i64;
    }
    Ok(bases)
}
