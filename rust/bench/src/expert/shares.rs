//! Shares: the chain ladder of a triangle.

use super::records::fill;
use super::{nearest, nearest_of_product, SCALE};
use crate::plain::{Set, Shares};

/// The least g(0), and the least and the most that an incurred g(j) may be.
const LEAST: i64 = 1_000_000;
const MOST: i64 = 4_000_000_000;

/// A triangle's latest row sums and ultimates, year i at place i - 1; A(j), B(j) and g(j), at
/// place j.
#[derive(Default)]
pub struct Ladder {
    pub latest: [i64; 20],
    pub a: [i64; 20],
    pub b: [i64; 20],
    pub g: [i64; 20],
    pub ultimates: [i64; 20],
}

impl Ladder {
    /// The sums over the first m years. B(j) is A(j) and column j; A(j+1) is B(j) without the year
    /// that ends at delay j.
    fn sum(&mut self, triangle: &[i64; 400], m: usize) {
        let mut columns = [0; 20];
        let years = triangle.as_chunks::<20>().0.iter().zip(&mut self.latest);
        for ((year, latest), known) in years.zip((1..=m).rev()) {
            let year = &year[..known];
            *latest = year.iter().sum();
            for (column, value) in columns.iter_mut().zip(year) {
                *column += value;
            }
        }
        let mut sum = columns[0];
        let ends = columns[1..m].iter().zip(self.latest[1..m].iter().rev());
        let sums = self.a[1..].iter_mut().zip(&mut self.b[1..]);
        for ((a, b), (column, latest)) in sums.zip(ends) {
            *a = sum - latest;
            *b = *a + column;
            sum = *b;
        }
    }

    /// g, each from the one after it, A(j) and B(j); nothing where `before` gives nothing.
    fn develop(&mut self, m: usize, before: impl Fn(i64, i64, i64) -> Option<i64>) -> Option<()> {
        let mut share = SCALE;
        self.g[m - 1] = share;
        for j in (1..m).rev() {
            share = before(share, self.a[j], self.b[j])?;
            self.g[j - 1] = share;
        }
        Some(())
    }

    /// The ultimates. C × S passes 64 bits, so the whole part of C / g is taken out first.
    fn extend(&mut self, m: usize) {
        let latest = self.latest.iter().zip(self.g[..m].iter().rev());
        for (ultimate, (latest, g)) in self.ultimates.iter_mut().zip(latest) {
            *ultimate = latest / g * SCALE + nearest(latest % g * SCALE, *g);
        }
    }

    fn shares(&self, m: usize) -> [i64; 20] {
        let (mut shares, mut before) = ([0; 20], 0);
        for (share, &g) in shares.iter_mut().zip(&self.g[..m]) {
            *share = g - before;
            before = g;
        }
        shares
    }
}

/// What counts and paid give.
#[derive(Default)]
pub struct Estimates {
    pub counts: Ladder,
    pub paid: Ladder,
    pub b: [i64; 20],
    pub q: [i64; 20],
}

impl Estimates {
    /// Questions 9 to 11 of the first m years, and their estimates, where zeros stood.
    pub fn fill(&mut self, set: &Set, m: usize) -> Result<(), u64> {
        let Estimates { counts, paid, b, q } = self;
        counts.sum(&set.triangles[0], m);
        paid.sum(&set.triangles[1], m);
        if counts.latest[..m].contains(&0) {
            return Err(9);
        }
        if paid.b[1..m].contains(&0) {
            return Err(10);
        }
        // A product with a sum of counts fits 64 bits.
        counts.develop(m, |g, a, b| Some(nearest(g * a, b)));
        paid.develop(m, |g, a, b| Some(nearest_of_product(g, a, b) as i64));
        if counts.g[0].min(paid.g[0]) < LEAST {
            return Err(11);
        }
        counts.extend(m);
        paid.extend(m);
        *b = counts.shares(m);
        *q = paid.shares(m);
        Ok(())
    }
}

/// Question 13 of the first m years, and W.
pub fn incurred_ultimates(set: &Set, m: usize) -> Result<[i64; 20], u64> {
    let mut ladder = Ladder::default();
    ladder.sum(&set.triangles[2], m);
    let mut columns = ladder.a[1..m].iter().chain(&ladder.b[1..m]);
    if columns.any(|&sum| sum <= 0) || ladder.latest[..m].iter().any(|&sum| sum < 0) {
        return Err(13);
    }
    let before = |g, a, b| {
        let share = i64::try_from(nearest_of_product(g, a, b)).ok()?;
        (LEAST..=MOST).contains(&share).then_some(share)
    };
    ladder.develop(m, before).ok_or(13u64)?;
    ladder.extend(m);
    Ok(ladder.ultimates)
}

/// Questions 1 to 5 and 9 to 11, and the shares.
pub fn shares(file: &[u8], m: usize) -> Result<Shares, u64> {
    let (mut set, mut estimates) = (Set::zero(), Estimates::default());
    fill(file, m, &mut set)?;
    estimates.fill(&set, m)?;
    Ok(Shares {
        line: set.line,
        b: estimates.b,
        n: estimates.counts.ultimates,
        q: estimates.q,
        g: estimates.paid.g,
        u: estimates.paid.ultimates,
    })
}
