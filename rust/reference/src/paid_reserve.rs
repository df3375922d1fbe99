//! Demand 3: the written forecast against the unrounded paid chain-ladder reserve.

use crate::big::Big;
use crate::forecast::{entry, entry_count, forecast};
use crate::fraction::Fraction;
use crate::records::{read_set, Refusal};
use crate::rounding::scale;
use crate::shares::{estimates, Estimates, Triangle};

/// Year i's distance and its bound, i + (i-1) × H / g.
#[derive(Clone, Debug)]
pub struct ReserveDistance {
    pub within: bool,
    pub distance: Fraction,
    pub bound: Fraction,
}

impl ReserveDistance {
    /// How close it came: distance over bound, in billionths.
    pub fn closeness(&self) -> Big {
        self.distance.over(&self.bound).billionths()
    }
}

/// G of paid (01, Shares): as g, with every quotient exact.
pub fn exact_shares(paid: &Triangle) -> Vec<Fraction> {
    let m = paid.m();
    let mut shares = vec![Fraction::whole(scale()); m];
    for j in (1..m).rev() {
        shares[j - 1] = shares[j].times(&Fraction::new(paid.a(j), paid.b(j)));
    }
    shares
}

/// H of row i: C(i,m-i) × S / G(m-i) of paid.
pub fn exact_ultimate(paid: &Triangle, exact_shares: &[Fraction], i: usize) -> Fraction {
    let upper = Fraction::whole(paid.latest(i) * scale());
    upper.over(&exact_shares[paid.m() - i])
}

/// What demand 3 holds a year's entries to: the unrounded reserve, and the bound.
pub struct PaidReserve {
    reserve: Fraction,
    bound: Fraction,
}

/// Those of an estimated set, year i at place i - 1. A lower number that is not above zero breaks
/// off the calculation.
pub fn paid_reserves(estimates: &Estimates) -> Vec<PaidReserve> {
    let paid = &estimates.paid;
    let m = paid.m();
    let exact_shares = exact_shares(paid);
    let year = |i: usize| {
        let h = exact_ultimate(paid, &exact_shares, i);
        let g = Fraction::whole(estimates.g[m - i].clone());
        let per_unit = h.over(&g).times(&Fraction::whole(Big::from(i - 1)));
        PaidReserve {
            reserve: h.minus(&Fraction::whole(paid.latest(i))),
            bound: Fraction::whole(Big::from(i)).plus(&per_unit),
        }
    };
    (1..=m).map(year).collect()
}

/// Each year's distance in the entries of a forecast.
pub fn distances(reserves: &[PaidReserve], entries: &[i64]) -> Vec<ReserveDistance> {
    let year = |(reserve, i): (&PaidReserve, usize)| {
        let written = written_sum(entries, reserves.len(), i);
        let distance = Fraction::whole(written).distance(&reserve.reserve);
        ReserveDistance {
            within: distance.at_most(&reserve.bound),
            distance,
            bound: reserve.bound.clone(),
        }
    };
    reserves.iter().zip(1..).map(year).collect()
}

/// For a file accepted under method 0, basis 1, each year's distance, year i at place i - 1.
pub fn demand3(file: &[u8], m: u64) -> Result<Vec<ReserveDistance>, Refusal> {
    let set = read_set(file, m)?;
    let forecast = forecast(file, m, 0, 1, entry_count(set.m))?;
    let reserves = paid_reserves(&estimates(&set)?);
    Ok(distances(&reserves, &forecast.entries))
}

/// The sum of a year's entries, RBNS and IBNR, below delay m.
fn written_sum(entries: &[i64], m: usize, i: usize) -> Big {
    (0..m)
        .map(|j| entry(m, i, j))
        .map(|at| Big::from(entries[at]) + Big::from(entries[at + 1]))
        .sum()
}
