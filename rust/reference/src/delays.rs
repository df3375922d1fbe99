//! 01, Delays: the triangular system.

use crate::big::Big;
use crate::halves::Quotient::Delay;
use crate::records::{read_set, Refusal};
use crate::rounding::{r, scale};
use crate::shares::{estimates, list, Estimates};

/// p(l) = r((S × q(l) - b(1) × p(l-1) - .. - b(l) × p(0)) / b(0)), one after the other.
pub fn solve(b: &[Big], q: &[Big]) -> Vec<Big> {
    let mut p: Vec<Big> = Vec::new();
    for l in 0..q.len() {
        let earlier: Big = (1..=l).map(|k| &b[k] * &p[l - k]).sum();
        p.push(r(Delay, &(scale() * &q[l] - earlier), &b[0]));
    }
    p
}

/// The delays of an estimated set, and question 12.
pub fn solved(estimates: &Estimates) -> Result<Vec<Big>, Refusal> {
    let p = solve(&estimates.b, &estimates.q);
    // Question 12.
    if !p.iter().all(in_range) {
        return Err(12);
    }
    Ok(p)
}

/// Whether a delay is in question 12's range.
pub fn in_range(delay: &Big) -> bool {
    delay.abs() <= Big::from(8_000_000_000i64)
}

/// What the call for delays hands back: the line of the set, and p(l) at place l.
#[derive(Clone, Debug, PartialEq, Eq)]
pub struct Delays {
    pub line: u64,
    pub p: [i64; 20],
}

/// Questions 1 to 5 and 9 to 12, and the delays.
pub fn delays(file: &[u8], m: u64) -> Result<Delays, Refusal> {
    let set = read_set(file, m)?;
    let p = solved(&estimates(&set)?)?;
    Ok(Delays {
        line: set.line,
        p: list(&p),
    })
}
