//! 01, Shares: the chain ladder of each triangle.

use crate::big::Big;
use crate::halves::Quotient::{Share, Ultimate};
use crate::records::{cells, place, read_set, Refusal, Set, Values};
use crate::rounding::{r, scale};

/// A triangle in whole numbers of any size.
pub struct Triangle {
    m: usize,
    values: Vec<Big>,
}

impl Triangle {
    pub fn new(m: usize, values: &Values) -> Triangle {
        let mut triangle = Triangle {
            m,
            values: vec![Big::zero(); 400],
        };
        for (i, j) in cells(m) {
            triangle.values[place(i, j)] = Big::from(values[place(i, j)]);
        }
        triangle
    }

    pub fn m(&self) -> usize {
        self.m
    }

    pub fn cell(&self, i: usize, j: usize) -> &Big {
        &self.values[place(i, j)]
    }

    /// C(i,j), row i summed up to delay j.
    pub fn c(&self, i: usize, j: usize) -> Big {
        (0..=j).map(|delay| self.cell(i, delay).clone()).sum()
    }

    /// C(i,m-i), row i's latest known sum.
    pub fn latest(&self, i: usize) -> Big {
        self.c(i, self.m - i)
    }

    /// A(j), the C(i,j-1) of the rows that have a delay j.
    pub fn a(&self, j: usize) -> Big {
        (1..=self.m - j).map(|i| self.c(i, j - 1)).sum()
    }

    /// B(j), the C(i,j) of the same rows.
    pub fn b(&self, j: usize) -> Big {
        (1..=self.m - j).map(|i| self.c(i, j)).sum()
    }

    /// g from the last delay down: g(m-1) = S, g(j-1) = r(g(j) × A(j) / B(j)). Every B(j) is above
    /// zero.
    pub fn g(&self) -> Vec<Big> {
        let mut g = vec![Big::zero(); self.m];
        g[self.m - 1] = scale();
        for j in (1..self.m).rev() {
            g[j - 1] = r(Share, &(&g[j] * self.a(j)), &self.b(j));
        }
        g
    }

    /// The ultimate r(C(i,m-i) × S / g(m-i)) of row i at place i - 1.
    pub fn ultimates(&self, g: &[Big]) -> Vec<Big> {
        (1..=self.m)
            .map(|i| r(Ultimate, &(self.latest(i) * scale()), &g[self.m - i]))
            .collect()
    }
}

/// The steps of g, from g(0) on.
pub fn shares_of(g: &[Big]) -> Vec<Big> {
    let mut shares = vec![g[0].clone()];
    for j in 1..g.len() {
        shares.push(&g[j] - &g[j - 1]);
    }
    shares
}

/// What the chain ladder makes of counts (b, N and their g) and of paid (q, g, U).
pub struct Estimates {
    pub counts: Triangle,
    pub paid: Triangle,
    pub count_g: Vec<Big>,
    pub b: Vec<Big>,
    pub n: Vec<Big>,
    pub q: Vec<Big>,
    pub g: Vec<Big>,
    pub u: Vec<Big>,
}

/// The least g(0), and the least incurred g(j).
fn least_g() -> Big {
    Big::from(1_000_000i64)
}

/// Questions 9 to 11, and what the chain ladder gives of counts and paid.
pub fn estimates(set: &Set) -> Result<Estimates, Refusal> {
    let m = set.m;
    let counts = Triangle::new(m, &set.counts);
    let paid = Triangle::new(m, &set.paid);
    // Question 9.
    if !(1..=m).all(|i| counts.latest(i).is_positive()) {
        return Err(9);
    }
    // Question 10.
    if !(1..m).all(|j| paid.b(j).is_positive()) {
        return Err(10);
    }
    let count_g = counts.g();
    let g = paid.g();
    // Question 11.
    if count_g[0] < least_g() || g[0] < least_g() {
        return Err(11);
    }
    Ok(Estimates {
        b: shares_of(&count_g),
        n: counts.ultimates(&count_g),
        q: shares_of(&g),
        u: paid.ultimates(&g),
        counts,
        paid,
        count_g,
        g,
    })
}

/// Question 13, and the incurred ultimates W.
pub fn incurred_ultimates(set: &Set) -> Result<Vec<Big>, Refusal> {
    let m = set.m;
    let incurred = Triangle::new(m, &set.incurred);
    if !(1..m).all(|j| incurred.a(j).is_positive() && incurred.b(j).is_positive()) {
        return Err(13);
    }
    if (1..=m).any(|i| incurred.latest(i).is_negative()) {
        return Err(13);
    }
    let g = incurred.g();
    let most = Big::from(4_000_000_000i64);
    if g.iter().any(|share| *share < least_g() || *share > most) {
        return Err(13);
    }
    Ok(incurred.ultimates(&g))
}

/// What the call for shares and ultimates hands back, with the line of the set; g is paid's.
#[derive(Clone, Debug, PartialEq, Eq)]
pub struct Shares {
    pub line: u64,
    pub b: [i64; 20],
    pub n: [i64; 20],
    pub q: [i64; 20],
    pub g: [i64; 20],
    pub u: [i64; 20],
}

/// Questions 1 to 5 and 9 to 11, and the shares and ultimates.
pub fn shares(file: &[u8], m: u64) -> Result<Shares, Refusal> {
    let set = read_set(file, m)?;
    let estimates = estimates(&set)?;
    Ok(Shares {
        line: set.line,
        b: list(&estimates.b),
        n: list(&estimates.n),
        q: list(&estimates.q),
        g: list(&estimates.g),
        u: list(&estimates.u),
    })
}

/// A list of 20, with 0 behind the values.
pub fn list(values: &[Big]) -> [i64; 20] {
    let mut list = [0; 20];
    for (at, value) in values.iter().enumerate() {
        list[at] = signed_64(value);
    }
    list
}

/// A number handed back; every one of an accepted file fits signed 64 bits.
pub fn signed_64(value: &Big) -> i64 {
    value.to_i64().expect("a number handed back leaves 64 bits")
}
