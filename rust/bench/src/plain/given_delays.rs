//! Given delays.

use super::forecast::{forecast_by_delays, set_to_forecast, Forecast};
use super::shares::{estimates, Shares};
use super::{read_set, SCALE};

/// Question 20, and the delays, p(l) at place l.
fn given(m: usize, shares: &Shares, delays: &[i64]) -> Result<[i64; 20], u64> {
    let outside = |delay: &i64| !(-8_000_000_000..=8_000_000_000).contains(delay);
    if delays.len() != m || delays.iter().any(outside) {
        return Err(20);
    }
    for l in 0..m {
        let sum: i128 = (0..=l)
            .map(|k| i128::from(shares.b[k]) * i128::from(delays[l - k]))
            .sum();
        let distance = (SCALE * i128::from(shares.q[l]) - sum).abs();
        if 2 * distance > i128::from(shares.b[0]) {
            return Err(20);
        }
    }
    let mut p = [0; 20];
    p[..m].copy_from_slice(delays);
    Ok(p)
}

/// Questions 1 to 5, 9 to 11 and 20, and the line of the set.
pub fn check_delays(file: &[u8], m: usize, delays: &[i64]) -> Result<u64, u64> {
    let set = read_set(file, m)?;
    let estimates = estimates(&set)?;
    given(m, &estimates.shares, delays)?;
    Ok(set.line)
}

/// The forecast with given delays: questions 1 to 7, 9 to 11, 20, 13 and 14.
pub fn forecast_with_delays(
    file: &[u8],
    m: usize,
    method: u64,
    basis: u64,
    delays: &[i64],
    out: &mut [i64],
) -> Result<Forecast, u64> {
    let (set, out) = set_to_forecast(file, m, method, basis, out)?;
    let estimates = estimates(&set)?;
    let p = given(m, &estimates.shares, delays)?;
    forecast_by_delays(&set, &estimates, &p, method, basis, out)
}
