//! Shares: the chain ladder of a triangle.

use super::{nearest, read_set, Set, SCALE};

/// The least g(0), and the least incurred g(j).
const LEAST: i128 = 1_000_000;

/// A triangle's sums: latest row sums, and A(j) and B(j) at place j.
pub struct Sums {
    m: usize,
    pub latest: [i64; 20],
    pub a: [i64; 20],
    pub b: [i64; 20],
}

impl Sums {
    pub fn new(m: usize, triangle: &[i64; 400]) -> Sums {
        let mut sums = Sums {
            m,
            latest: [0; 20],
            a: [0; 20],
            b: [0; 20],
        };
        for i in 1..=m {
            let row = &triangle[20 * (i - 1)..];
            let mut sum = row[0];
            for (j, value) in row.iter().enumerate().take(m - i + 1).skip(1) {
                sums.a[j] += sum;
                sum += value;
                sums.b[j] += sum;
            }
            sums.latest[i - 1] = sum;
        }
        sums
    }

    /// g(j) at place j, where every B(j) is above zero; nothing where one passes `most`.
    fn g(&self, most: i128) -> Option<[i64; 20]> {
        let mut g = [0; 20];
        g[self.m - 1] = SCALE as i64;
        for j in (1..self.m).rev() {
            let next = nearest(
                i128::from(g[j]) * i128::from(self.a[j]),
                i128::from(self.b[j]),
            );
            if next > most {
                return None;
            }
            g[j - 1] = next as i64;
        }
        Some(g)
    }

    fn ultimates(&self, g: &[i64; 20]) -> [i64; 20] {
        let mut ultimates = [0; 20];
        for i in 1..=self.m {
            let latest = i128::from(self.latest[i - 1]);
            ultimates[i - 1] = nearest(latest * SCALE, i128::from(g[self.m - i])) as i64;
        }
        ultimates
    }
}

fn shares_of(m: usize, g: &[i64; 20]) -> [i64; 20] {
    let mut shares = [0; 20];
    shares[0] = g[0];
    for j in 1..m {
        shares[j] = g[j] - g[j - 1];
    }
    shares
}

/// What counts and paid give.
pub struct Estimates {
    pub counts: Sums,
    pub paid: Sums,
    pub count_g: [i64; 20],
    pub shares: Shares,
}

/// The line of the set; b and N of counts; q, g and U of paid.
#[derive(Clone, Debug, PartialEq, Eq)]
pub struct Shares {
    pub line: u64,
    pub b: [i64; 20],
    pub n: [i64; 20],
    pub q: [i64; 20],
    pub g: [i64; 20],
    pub u: [i64; 20],
}

/// Questions 9 to 11, and the estimates.
pub fn estimates(set: &Set) -> Result<Estimates, u64> {
    let m = set.m;
    let counts = Sums::new(m, &set.triangles[0]);
    let paid = Sums::new(m, &set.triangles[1]);
    if counts.latest[..m].contains(&0) {
        return Err(9);
    }
    if paid.b[1..m].contains(&0) {
        return Err(10);
    }
    // Values that are not negative keep g at S or below.
    let count_g = counts.g(SCALE).ok_or(11u64)?;
    let g = paid.g(SCALE).ok_or(11u64)?;
    if i128::from(count_g[0].min(g[0])) < LEAST {
        return Err(11);
    }
    let shares = Shares {
        line: set.line,
        b: shares_of(m, &count_g),
        n: counts.ultimates(&count_g),
        q: shares_of(m, &g),
        u: paid.ultimates(&g),
        g,
    };
    Ok(Estimates {
        counts,
        paid,
        count_g,
        shares,
    })
}

/// Question 13, and W.
pub fn incurred_ultimates(set: &Set) -> Result<[i64; 20], u64> {
    let m = set.m;
    let sums = Sums::new(m, &set.triangles[2]);
    let columns = sums.a[1..m].iter().chain(&sums.b[1..m]);
    if columns.clone().any(|&sum| sum <= 0) || sums.latest[..m].iter().any(|&sum| sum < 0) {
        return Err(13);
    }
    let g = sums.g(4_000_000_000).ok_or(13u64)?;
    if g[..m].iter().any(|&share| i128::from(share) < LEAST) {
        return Err(13);
    }
    Ok(sums.ultimates(&g))
}

/// Questions 1 to 5 and 9 to 11, and the shares.
pub fn shares(file: &[u8], m: usize) -> Result<Shares, u64> {
    Ok(estimates(&read_set(file, m)?)?.shares)
}
