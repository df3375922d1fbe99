//! Claim-cost card.

use super::records::fill;
use super::shares::Estimates;
use crate::plain::{ClaimCosts, Inflation, Set};

/// Questions 1 to 5 and 9 to 11, and the claim costs.
pub fn claim_costs(file: &[u8], m: usize) -> Result<ClaimCosts, u64> {
    let (mut set, mut estimates) = (Set::zero(), Estimates::default());
    fill(file, m, &mut set)?;
    estimates.fill(&set, m)?;
    let Estimates { counts, paid, .. } = &estimates;
    let (n, u) = (&counts.ultimates, &paid.ultimates);
    let mut costs = ClaimCosts {
        line: set.line,
        mu: u[0] as f64 / n[0] as f64,
        factors: [0.0; 20],
        inflations: [Inflation::NoPaymentsYet; 20],
    };
    let sums = paid.a[1..m].iter().zip(&paid.b[1..m]);
    for (factor, (&a, &b)) in costs.factors.iter_mut().zip(sums) {
        *factor = b as f64 / a as f64;
    }
    let ultimates = u[..m].iter().zip(&n[..m]);
    for (inflation, (&u, &n)) in costs.inflations.iter_mut().zip(ultimates) {
        if u != 0 {
            *inflation = Inflation::Ratio(u as f64 / n as f64 / costs.mu);
        }
    }
    costs.inflations[0] = Inflation::BaseYear;
    Ok(costs)
}
