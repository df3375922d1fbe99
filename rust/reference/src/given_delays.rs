//! 02, Job 6: given delays.

use crate::big::Big;
use crate::delays::in_range;
use crate::forecast::{forecast_by_delays, set_to_forecast, Forecast};
use crate::records::{read_set, Refusal, Set};
use crate::rounding::scale;
use crate::shares::{estimates, Estimates};

/// Questions 1 to 5, 9 to 11, and 20, and the line of the set.
pub fn check_delays(file: &[u8], m: u64, delays: &[i64]) -> Result<u64, Refusal> {
    let estimated = Estimated::of(read_set(file, m)?)?;
    estimated.given(delays)?;
    Ok(estimated.set.line)
}

/// The forecast of a file by given delays, into an output of `out_len` entries: questions 1 to 7, 9
/// to 11, 20, 13 and 14.
pub fn forecast_with_delays(
    file: &[u8],
    m: u64,
    method: u64,
    basis: u64,
    delays: &[i64],
    out_len: usize,
) -> Result<Forecast, Refusal> {
    let set = set_to_forecast(file, m, method, basis, out_len)?;
    Estimated::of(set)?.forecast(method, basis, delays)
}

/// A set whose counts and payments can be estimated, and what they give.
pub struct Estimated {
    pub set: Set,
    pub estimates: Estimates,
}

impl Estimated {
    /// Questions 9 to 11.
    pub fn of(set: Set) -> Result<Estimated, Refusal> {
        let estimates = estimates(&set)?;
        Ok(Estimated { set, estimates })
    }

    /// Question 20, and the given delays in whole numbers of any size.
    pub fn given(&self, delays: &[i64]) -> Result<Vec<Big>, Refusal> {
        let m = self.set.m;
        let p: Vec<Big> = delays.iter().copied().map(Big::from).collect();
        if p.len() != m || !p.iter().all(in_range) {
            return Err(20);
        }
        if (0..m).any(|l| twice_distance(&self.estimates, &p[..=l]) > self.estimates.b[0]) {
            return Err(20);
        }
        Ok(p)
    }

    /// Questions 20, 13 and 14, and the forecast by these delays.
    pub fn forecast(&self, method: u64, basis: u64, delays: &[i64]) -> Result<Forecast, Refusal> {
        let p = self.given(delays)?;
        forecast_by_delays(&self.set, &self.estimates, &p, method, basis)
    }
}

/// Of the last delay l of these: twice the distance between S × q(l) and the sum of b(k) × p(l-k)
/// for k = 0 to l.
pub fn twice_distance(Estimates { b, q, .. }: &Estimates, p: &[Big]) -> Big {
    let l = p.len() - 1;
    let sum: Big = (0..=l).map(|k| &b[k] * &p[l - k]).sum();
    Big::from(2i64) * (scale() * &q[l] - sum).abs()
}
