//! Cell forecasts.

use super::delays::solve;
use super::row_bases::row_bases;
use super::shares::{estimates, Estimates};
use super::{nearest, read_set, Set, SCALE};

/// The line of the set, and the leftovers; the entries stand in the caller's output.
#[derive(Clone, Debug, PartialEq, Eq)]
pub struct Forecast {
    pub line: u64,
    pub leftovers: [i64; 20],
}

/// Question 6.
pub fn question_6(set: &Set, method: u64, basis: u64) -> Result<(), u64> {
    if method > 2 || basis > 1 || (method > 0 && !set.has_incurred) {
        return Err(6);
    }
    Ok(())
}

/// s(k) of year i, k from 0 to m - i.
fn reported_shares(set: &Set, estimates: &Estimates, i: usize, basis: u64) -> [i64; 20] {
    if basis == 1 {
        return estimates.shares.b;
    }
    let counts = &set.triangles[0][20 * (i - 1)..20 * i];
    let (g, latest) = (estimates.count_g[set.m - i], estimates.counts.latest[i - 1]);
    let mut shares = [0; 20];
    for k in 0..=set.m - i {
        shares[k] = nearest(i128::from(counts[k]) * i128::from(g), i128::from(latest)) as i64;
    }
    shares
}

/// r(V × sum of share(k) × p(j-k) / S²) over delays k from `from` to `to`.
fn cell(v: i64, share: &[i64; 20], p: &[i64; 20], j: usize, from: usize, to: usize) -> i64 {
    let sum: i128 = (from..=to)
        .map(|k| i128::from(share[k]) * i128::from(p[j - k]))
        .sum();
    nearest(i128::from(v) * sum, SCALE * SCALE) as i64
}

/// Questions 9 to 14, the entries at the front of `out`, the line and the leftovers.
pub fn forecast_set(set: &Set, method: u64, basis: u64, out: &mut [i64]) -> Result<Forecast, u64> {
    let estimates = estimates(set)?;
    let p = solve(set.m, &estimates.shares)?;
    forecast_by_delays(set, &estimates, &p, method, basis, out)
}

/// Questions 13 and 14, the entries, the line and the leftovers by delays that are there.
pub fn forecast_by_delays(
    set: &Set,
    estimates: &Estimates,
    p: &[i64; 20],
    method: u64,
    basis: u64,
    out: &mut [i64],
) -> Result<Forecast, u64> {
    let m = set.m;
    let bases = row_bases(set, estimates, method)?;
    let width = 2 * (2 * m - 1);
    for (i, row) in (1..=m).zip(out.chunks_exact_mut(width)) {
        let v = bases.v[i - 1];
        let s = reported_shares(set, estimates, i, basis);
        row.fill(0);
        for j in m - i + 1..=2 * m - 2 {
            let (first, last) = (j.saturating_sub(m - 1), j.min(m - 1));
            row[2 * j] = cell(v, &s, p, j, first, last.min(m - i));
            row[2 * j + 1] = cell(v, &estimates.shares.b, p, j, first.max(m - i + 1), last);
        }
    }
    Ok(Forecast {
        line: set.line,
        leftovers: bases.leftovers,
    })
}

/// The forecast of a file: questions 1 to 7 and 9 to 14.
pub fn forecast(
    file: &[u8],
    m: usize,
    method: u64,
    basis: u64,
    out: &mut [i64],
) -> Result<Forecast, u64> {
    let (set, out) = set_to_forecast(file, m, method, basis, out)?;
    forecast_set(&set, method, basis, out)
}

/// Questions 1 to 7: the set, and the places of its entries.
pub fn set_to_forecast<'a>(
    file: &[u8],
    m: usize,
    method: u64,
    basis: u64,
    out: &'a mut [i64],
) -> Result<(Set, &'a mut [i64]), u64> {
    let set = read_set(file, m)?;
    question_6(&set, method, basis)?;
    let entries = 2 * m * (2 * m - 1);
    if out.len() < entries {
        return Err(7);
    }
    Ok((set, &mut out[..entries]))
}
