//! Given delays.

use super::forecast::forecast_by;
use super::records::fill;
use super::shares::Estimates;
use super::SCALE;
use crate::plain::{Forecast, Set};

/// Question 20, and the delays, p(l) at place l. In range, they keep every sum to 64 bits; half of
/// b(0) is cut, as distances are whole.
fn given(m: usize, Estimates { b, q, .. }: &Estimates, delays: &[i64]) -> Result<[i64; 20], u64> {
    let outside = |delay: &i64| delay.unsigned_abs() > 8_000_000_000;
    if delays.len() != m || delays.iter().any(outside) {
        return Err(20);
    }
    for (l, q) in q[..m].iter().enumerate() {
        let terms = b[..=l].iter().zip(delays[..=l].iter().rev());
        let sum: i64 = terms.map(|(b, p)| b * p).sum();
        if (SCALE * q - sum).abs() > b[0] / 2 {
            return Err(20);
        }
    }
    let mut p = [0; 20];
    p[..m].copy_from_slice(delays);
    Ok(p)
}

/// Questions 1 to 5, 9 to 11 and 20, and the line of the set.
pub fn check_delays(file: &[u8], m: usize, delays: &[i64]) -> Result<u64, u64> {
    let (mut set, mut estimates) = (Set::zero(), Estimates::default());
    fill(file, m, &mut set)?;
    estimates.fill(&set, m)?;
    given(m, &estimates, delays)?;
    Ok(set.line)
}

/// Questions 1 to 7, 9 to 11, 20, 13 and 14, the entries at the front of `out`, the line and the
/// leftovers.
pub fn forecast_with_delays(
    file: &[u8],
    m: usize,
    method: u64,
    basis: u64,
    delays: &[i64],
    out: &mut [i64],
) -> Result<Forecast, u64> {
    forecast_by(
        file,
        m,
        [method, basis],
        |found| given(m, found, delays),
        out,
    )
}
