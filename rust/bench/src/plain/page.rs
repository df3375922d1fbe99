//! The closing page.

use super::closing::calendar_years;
use super::forecast::{forecast_set, question_6};
use super::read_set;
use std::fmt::Write;

fn line(text: &mut String, name: &str, [rbns, ibnr]: [i128; 2]) {
    let total = rbns + ibnr;
    writeln!(text, "{name:>4}{rbns:>21}{ibnr:>21}{total:>21}").expect("a string takes all");
}

/// Questions 1 to 6, 15 and 9 to 14, and the page at the front of `page`.
pub fn closing_page(
    file: &[u8],
    m: usize,
    method: u64,
    basis: u64,
    page: &mut [u8],
) -> Result<(), u64> {
    let set = read_set(file, m)?;
    question_6(&set, method, basis)?;
    if page.len() < 136 * m {
        return Err(15);
    }
    let mut out = [0; 1_560];
    forecast_set(&set, method, basis, &mut out[..2 * m * (2 * m - 1)])?;
    let years = calendar_years(m, &out);
    let mut text = format!("{:>4}{:>21}{:>21}{:>21}\n", "YEAR", "RBNS", "IBNR", "TOTAL");
    let mut totals = [0; 2];
    for t in 1..=2 * m - 2 {
        let [rbns, ibnr] = years[t - 1];
        line(&mut text, &t.to_string(), [rbns, ibnr]);
        totals[0] += rbns;
        totals[1] += ibnr;
    }
    line(&mut text, "ALL", totals);
    page[..text.len()].copy_from_slice(text.as_bytes());
    Ok(())
}
