//! Cell forecasts.

use super::delays::solve;
use super::row_bases::row_bases;
use super::shares::Estimates;
use super::{nearest, SCALE};
use crate::plain::{Forecast, Set};

/// A row base in two parts, S × `high` + `low`, and its sign.
struct Base {
    high: u64,
    low: u64,
    is_negative: bool,
}

impl Base {
    fn new(v: i64) -> Base {
        let (size, scale) = (v.unsigned_abs(), SCALE as u64);
        Base {
            high: size / scale,
            low: size % scale,
            is_negative: v < 0,
        }
    }

    /// r(V × sum / S²), the sum in two parts as well, so that each product fits 64 bits. What is
    /// below S in the end matters only at a half.
    fn cell(&self, sum: i64) -> i64 {
        if sum == 0 {
            return 0;
        }
        let (size, scale) = (sum.unsigned_abs(), SCALE as u64);
        let (high, low) = (size / scale, size % scale);
        let middle = self.high * low + self.low * high + self.low * low / scale + scale / 2;
        let mut rounded = (self.high * high + middle / scale) as i64;
        if middle.is_multiple_of(scale) {
            rounded = self.at_half(low, rounded);
        }
        if self.is_negative != (sum < 0) {
            -rounded
        } else {
            rounded
        }
    }

    /// The number above a half, or the even one where nothing is left below S.
    #[cold]
    #[inline(never)]
    fn at_half(&self, low: u64, above: i64) -> i64 {
        if (self.low * low).is_multiple_of(SCALE as u64) {
            above & !1
        } else {
            above
        }
    }
}

/// A year's cells from its first unknown one on, which falls into the first calendar year.
pub struct Cells<'a> {
    base: Base,
    reported: &'a [i64],
    unreported: &'a [i64],
}

impl Cells<'_> {
    /// RBNS and IBNR of each.
    pub fn iter(&self) -> impl Iterator<Item = (i64, i64)> + '_ {
        let sums = self.reported.iter().zip(self.unreported);
        sums.map(|(&reported, &unreported)| (self.base.cell(reported), self.base.cell(unreported)))
    }
}

/// Adds share × p(l) to the sums from the first one on.
fn add(sums: &mut [i64], share: i64, p: &[i64]) {
    for (sum, p) in sums.iter_mut().zip(p) {
        *sum += share * p;
    }
}

/// Questions 9 to 14 of the first m years, then each year's cells at delays below `end(i)`, the
/// line and the leftovers.
pub fn each_year(
    set: &Set,
    m: usize,
    settings: [u64; 2],
    end: impl Fn(usize) -> usize,
    visit: impl FnMut(usize, Cells),
) -> Result<Forecast, u64> {
    each_year_by(set, m, settings, |found| solve(m, found), end, visit)
}

/// The same with delays from the estimates, and the question that `delays` asks in place of 12.
pub fn each_year_by(
    set: &Set,
    m: usize,
    [method, basis]: [u64; 2],
    delays: impl FnOnce(&Estimates) -> Result<[i64; 20], u64>,
    end: impl Fn(usize) -> usize,
    mut visit: impl FnMut(usize, Cells),
) -> Result<Forecast, u64> {
    let mut estimates = Estimates::default();
    estimates.fill(set, m)?;
    let p = delays(&estimates)?;
    let bases = row_bases(set, m, &estimates, method)?;
    let (b, p) = (&estimates.b, &p[..m]);
    // For each delay j, the sum of share(k) × p(j-k) over the reported k and over the others. Under
    // basis 1 the k that a year no longer knows goes from the one to the other.
    let [mut reported, mut unreported] = [[0; 39]; 2];
    if basis == 1 {
        for (k, &b) in b[..m].iter().enumerate() {
            add(&mut reported[k..end(1)], b, p);
        }
    }
    for i in 1..=m {
        let delays = m - i + 1..end(i);
        if i > 1 {
            add(&mut unreported[delays.clone()], b[m - i + 1], p);
        }
        if i > 1 && basis == 1 {
            add(&mut reported[delays.clone()], -b[m - i + 1], p);
        }
        if basis == 0 {
            let (g, latest) = (estimates.counts.g[m - i], estimates.counts.latest[i - 1]);
            let counts = &set.triangles[0][20 * (i - 1)..][..m - i + 1];
            reported[delays.clone()].fill(0);
            for (k, count) in counts.iter().enumerate() {
                let share = nearest(count * g, latest);
                add(&mut reported[delays.clone()], share, &p[m - i + 1 - k..]);
            }
        }
        let cells = Cells {
            base: Base::new(bases.v[i - 1]),
            reported: &reported[delays.clone()],
            unreported: &unreported[delays],
        };
        visit(i, cells);
    }
    Ok(Forecast {
        line: set.line,
        leftovers: bases.leftovers,
    })
}
