//! Back-test.

use super::forecast::{forecast_set, question_6};
use super::{read_set, Set};

/// The line of the set, the number of cells, and the sums of absolute errors by cell, by calendar
/// year and in all.
#[derive(Clone, Debug, PartialEq, Eq)]
pub struct BackTest {
    pub line: u64,
    pub cells: u64,
    pub cellwise: u64,
    pub yearwise: u64,
    pub overall: u64,
}

fn cut_to(set: &Set, s: usize) -> Set {
    let mut triangles = [[0; 400]; 3];
    for (cut, full) in triangles.iter_mut().zip(&set.triangles) {
        for i in 1..=s {
            let row = 20 * (i - 1)..20 * (i - 1) + s - i + 1;
            cut[row.clone()].copy_from_slice(&full[row]);
        }
    }
    Set {
        m: s,
        line: set.line,
        has_incurred: set.has_incurred,
        triangles,
    }
}

/// Questions 1 to 6, 8, and 9 to 14 of the cut set, and the errors.
pub fn back_test(file: &[u8], m: usize, c: u64, method: u64, basis: u64) -> Result<BackTest, u64> {
    let set = read_set(file, m)?;
    question_6(&set, method, basis)?;
    if c < 1 || c > m as u64 - 2 {
        return Err(8);
    }
    let s = m - c as usize;
    let mut out = [0; 1560];
    forecast_set(
        &cut_to(&set, s),
        method,
        basis,
        &mut out[..2 * s * (2 * s - 1)],
    )?;
    let mut found = BackTest {
        line: set.line,
        cells: 0,
        cellwise: 0,
        yearwise: 0,
        overall: 0,
    };
    let mut overall = 0i128;
    for t in s + 1..=m {
        let mut year = 0i128;
        for i in t - s + 1..=s {
            let j = t - i;
            let at = 2 * ((i - 1) * (2 * s - 1) + j);
            let error = i128::from(out[at]) + i128::from(out[at + 1])
                - i128::from(set.triangles[1][20 * (i - 1) + j]);
            found.cells += 1;
            found.cellwise += error.unsigned_abs() as u64;
            year += error;
        }
        found.yearwise += year.unsigned_abs() as u64;
        overall += year;
    }
    found.overall = overall.unsigned_abs() as u64;
    Ok(found)
}
