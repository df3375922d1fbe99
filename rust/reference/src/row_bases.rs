//! 01, Row bases.

use crate::big::Big;
use crate::halves::Quotient::RowBase;
use crate::records::{Refusal, Set};
use crate::rounding::r;
use crate::shares::{incurred_ultimates, Estimates};

/// V(i) and the leftovers, year i at place i - 1.
pub struct RowBases {
    pub v: Vec<Big>,
    pub leftovers: Vec<Big>,
}

/// Questions 13 and 14, and the row bases of a method (0 DCL, 1 BDCL, 2 IDCL).
pub fn row_bases(set: &Set, estimates: &Estimates, method: u64) -> Result<RowBases, Refusal> {
    let bases = match method {
        0 => return Ok(dcl(&estimates.u)),
        1 => bdcl(&estimates.u, &incurred_ultimates(set)?),
        _ => idcl(estimates, &incurred_ultimates(set)?),
    };
    // Question 14.
    let most = Big::from(200_000_000_000_000i64);
    if bases.v.iter().any(|v| v.abs() > most) {
        return Err(14);
    }
    Ok(bases)
}

/// DCL: V(i) = U(i).
fn dcl(u: &[Big]) -> RowBases {
    RowBases {
        v: u.to_vec(),
        leftovers: vec![Big::zero(); u.len()],
    }
}

/// BDCL: V(i) = r(U(1) × W(i) / W(1)).
fn bdcl(u: &[Big], w: &[Big]) -> RowBases {
    RowBases {
        v: w.iter()
            .map(|ultimate| r(RowBase, &(&u[0] * ultimate), &w[0]))
            .collect(),
        leftovers: vec![Big::zero(); u.len()],
    }
}

/// IDCL: V(i) = r(U(i) × R* / R), with the reserves R of U and R* of W; a year with R = 0 keeps
/// V(i) = U(i), and its R* is the leftover.
fn idcl(estimates: &Estimates, w: &[Big]) -> RowBases {
    let mut bases = dcl(&estimates.u);
    for (at, u) in estimates.u.iter().enumerate() {
        let paid = estimates.paid.latest(at + 1);
        let reserve = u - &paid;
        let incurred_reserve = &w[at] - &paid;
        if reserve.is_zero() {
            bases.leftovers[at] = incurred_reserve;
        } else {
            bases.v[at] = r(RowBase, &(u * incurred_reserve), &reserve);
        }
    }
    bases
}
