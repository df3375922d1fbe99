//! 01, Back-test.

use crate::big::Big;
use crate::forecast::{entry, forecast_set, question_6};
use crate::records::{cells, place, read_set, Refusal, Set};

/// The line of the set, the number of cells compared, and the sums of absolute errors.
#[derive(Clone, Debug, PartialEq, Eq)]
pub struct BackTest {
    pub line: u64,
    pub cells: u64,
    pub cellwise: u64,
    pub yearwise: u64,
    pub overall: u64,
}

/// Questions 1 to 6 of the full set, 8, then 9 to 14 of the cut set.
pub fn back_test(
    file: &[u8],
    m: u64,
    c: u64,
    method: u64,
    basis: u64,
) -> Result<BackTest, Refusal> {
    let set = read_set(file, m)?;
    question_6(&set, method, basis)?;
    // Question 8.
    if c < 1 || c > m - 2 {
        return Err(8);
    }
    let s = set.m - c as usize;
    let forecast = forecast_set(&cut_set(&set, s), method, basis)?;
    // The error of a cell: RBNS + IBNR less paid.
    let error = |i: usize, j: usize| {
        let at = entry(s, i, j);
        let amount = Big::from(forecast.entries[at]) + Big::from(forecast.entries[at + 1]);
        amount - Big::from(set.paid[place(i, j)])
    };
    let compared = compared_cells(set.m, s);
    let years = s + 1..=set.m;
    let year_error = |year: usize| -> Big {
        let of_year = compared.iter().filter(|(i, j)| i + j == year);
        of_year.map(|&(i, j)| error(i, j)).sum()
    };
    let cellwise: Big = compared.iter().map(|&(i, j)| error(i, j).abs()).sum();
    let yearwise: Big = years.map(|year| year_error(year).abs()).sum();
    let overall: Big = compared.iter().map(|&(i, j)| error(i, j)).sum();
    Ok(BackTest {
        line: set.line,
        cells: compared.len() as u64,
        cellwise: unsigned_64(&cellwise),
        yearwise: unsigned_64(&yearwise),
        overall: unsigned_64(&overall.abs()),
    })
}

/// The set of s years that was known c years earlier, on the same line.
pub fn cut_set(set: &Set, s: usize) -> Set {
    let mut cut = Set::empty(s, set.has_incurred).on_line(set.line);
    for kind in 0..set.kinds() {
        for (i, j) in cells(s) {
            cut.triangle_mut(kind)[place(i, j)] = set.triangle(kind)[place(i, j)];
        }
    }
    cut
}

/// The cells of the full set that the cut set has forecast at delays below s.
fn compared_cells(m: usize, s: usize) -> Vec<(usize, usize)> {
    cells(m)
        .filter(|&(i, j)| i <= s && j < s && s < i + j)
        .collect()
}

fn unsigned_64(value: &Big) -> u64 {
    let value = value.to_i128().and_then(|value| u64::try_from(value).ok());
    value.expect("a sum of errors leaves 64 bits")
}
