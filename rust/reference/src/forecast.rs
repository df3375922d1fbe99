//! 01, Cell forecasts.

use crate::big::Big;
use crate::delays::solved;
use crate::halves::Quotient::{Cell, Weight};
use crate::records::{read_set, Refusal, Set};
use crate::rounding::{r, scale};
use crate::row_bases::row_bases;
use crate::shares::{estimates, list, signed_64, Estimates};

/// The line of the set, the 2m(2m-1) output entries, and the leftovers.
#[derive(Clone, Debug, PartialEq, Eq)]
pub struct Forecast {
    pub line: u64,
    pub entries: Vec<i64>,
    pub leftovers: [i64; 20],
}

/// The place of RBNS of cell (i,j); IBNR stands at the next one.
pub fn entry(m: usize, i: usize, j: usize) -> usize {
    2 * ((i - 1) * (2 * m - 1) + j)
}

/// How many entries a forecast has.
pub fn entry_count(m: usize) -> usize {
    2 * m * (2 * m - 1)
}

/// The forecast of a file, into an output of `out_len` entries: questions 1 to 7 and 9 to 14.
pub fn forecast(
    file: &[u8],
    m: u64,
    method: u64,
    basis: u64,
    out_len: usize,
) -> Result<Forecast, Refusal> {
    let set = set_to_forecast(file, m, method, basis, out_len)?;
    forecast_set(&set, method, basis)
}

/// The set of a file that is to be forecast into so many entries: questions 1 to 7.
pub fn set_to_forecast(
    file: &[u8],
    m: u64,
    method: u64,
    basis: u64,
    out_len: usize,
) -> Result<Set, Refusal> {
    let set = read_set(file, m)?;
    question_6(&set, method, basis)?;
    // Question 7.
    if out_len < entry_count(set.m) {
        return Err(7);
    }
    Ok(set)
}

/// Question 6.
pub fn question_6(set: &Set, method: u64, basis: u64) -> Result<(), Refusal> {
    if method <= 2 && basis <= 1 && (method == 0 || set.has_incurred) {
        Ok(())
    } else {
        Err(6)
    }
}

/// The forecast of a set: questions 9 to 14.
pub fn forecast_set(set: &Set, method: u64, basis: u64) -> Result<Forecast, Refusal> {
    let estimates = estimates(set)?;
    let p = solved(&estimates)?;
    forecast_by_delays(set, &estimates, &p, method, basis)
}

/// The forecast of an estimated set by m delays, whoever solved them: questions 13 and 14.
pub fn forecast_by_delays(
    set: &Set,
    estimates: &Estimates,
    p: &[Big],
    method: u64,
    basis: u64,
) -> Result<Forecast, Refusal> {
    let m = set.m;
    let bases = row_bases(set, estimates, method)?;
    let mut entries = vec![0; entry_count(m)];
    for i in 1..=m {
        let v = &bases.v[i - 1];
        let s = reported_shares(estimates, i, basis);
        for j in m - i + 1..=2 * m - 2 {
            let rbns = cell_forecast(v, &s, p, j, |k| k <= m - i);
            let ibnr = cell_forecast(v, &estimates.b, p, j, |k| k > m - i);
            entries[entry(m, i, j)] = signed_64(&rbns);
            entries[entry(m, i, j) + 1] = signed_64(&ibnr);
        }
    }
    Ok(Forecast {
        line: set.line,
        entries,
        leftovers: list(&bases.leftovers),
    })
}

/// s(k) of year i for k = 0 to m - i: the estimated b(k) (basis 1), or the part that the year's own
/// count has, r(count(i,k) × g(m-i) / C(i,m-i)) of counts (basis 0).
pub fn reported_shares(estimates: &Estimates, i: usize, basis: u64) -> Vec<Big> {
    let counts = &estimates.counts;
    let latest = counts.m() - i;
    let share = |k: usize| match basis {
        1 => estimates.b[k].clone(),
        _ => r(
            Weight,
            &(counts.cell(i, k) * &estimates.count_g[latest]),
            &counts.c(i, latest),
        ),
    };
    (0..=latest).map(share).collect()
}

/// r(V(i) × sum of share(k) × p(l) / S^2) over the reporting delays k that are chosen, with a
/// payment delay l = j - k from 0 to m - 1.
fn cell_forecast(
    v: &Big,
    share: &[Big],
    p: &[Big],
    j: usize,
    chosen: impl Fn(usize) -> bool,
) -> Big {
    let m = p.len();
    let total: Big = (0..m)
        .filter(|&k| k <= j && j - k < m && chosen(k))
        .map(|k| &share[k] * &p[j - k])
        .sum();
    r(Cell, &(v * total), &(scale() * scale()))
}
