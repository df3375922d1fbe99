//! Delays.

use super::records::fill;
use super::shares::Estimates;
use super::{nearest, SCALE};
use crate::plain::{Delays, Set};

/// Question 12, and the delays, p(l) at place l. As long as it gets a yes, sums fit 64 bits.
pub fn solve(m: usize, Estimates { b, q, .. }: &Estimates) -> Result<[i64; 20], u64> {
    let mut p = [0; 20];
    for l in 0..m {
        let terms = b[1..=l].iter().zip(p[..l].iter().rev());
        let earlier: i64 = terms.map(|(b, p)| b * p).sum();
        p[l] = nearest(SCALE * q[l] - earlier, b[0]);
        if p[l].abs() > 8_000_000_000 {
            return Err(12);
        }
    }
    Ok(p)
}

/// Questions 1 to 5 and 9 to 12, and the delays.
pub fn delays(file: &[u8], m: usize) -> Result<Delays, u64> {
    let (mut set, mut estimates) = (Set::zero(), Estimates::default());
    fill(file, m, &mut set)?;
    estimates.fill(&set, m)?;
    let p = solve(m, &estimates)?;
    Ok(Delays { line: set.line, p })
}
