//! Delays: the triangular system.

use super::shares::{estimates, Shares};
use super::{nearest, read_set, SCALE};

/// Question 12, and the delays, p(l) at place l.
pub fn solve(m: usize, shares: &Shares) -> Result<[i64; 20], u64> {
    let mut p = [0; 20];
    for l in 0..m {
        let earlier: i128 = (1..=l)
            .map(|k| i128::from(shares.b[k]) * i128::from(p[l - k]))
            .sum();
        let delay = nearest(
            SCALE * i128::from(shares.q[l]) - earlier,
            i128::from(shares.b[0]),
        );
        // A delay out of range ends the question, so that later ones are not asked for.
        if delay.abs() > 8_000_000_000 {
            return Err(12);
        }
        p[l] = delay as i64;
    }
    Ok(p)
}

/// The line of the set, and p(l) at place l.
#[derive(Clone, Debug, PartialEq, Eq)]
pub struct Delays {
    pub line: u64,
    pub p: [i64; 20],
}

/// Questions 1 to 5 and 9 to 12, and the delays.
pub fn delays(file: &[u8], m: usize) -> Result<Delays, u64> {
    let set = read_set(file, m)?;
    let p = solve(m, &estimates(&set)?.shares)?;
    Ok(Delays { line: set.line, p })
}
