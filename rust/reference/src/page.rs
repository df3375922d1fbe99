//! 02, Job 1: the closing page.

use crate::big::Big;
use crate::calendar::Tally;
use crate::forecast::{forecast_set, question_6};
use crate::records::{read_set, Refusal};
use std::fmt::Display;

/// How many bytes a page has: 2m lines of 67 characters and a newline.
pub fn page_length(m: usize) -> usize {
    136 * m
}

/// The closing page of a file, into a page of `page_len` bytes: questions 1 to 6, 15 and 9 to 14.
pub fn closing_page(
    file: &[u8],
    m: u64,
    method: u64,
    basis: u64,
    page_len: usize,
) -> Result<String, Refusal> {
    let set = read_set(file, m)?;
    question_6(&set, method, basis)?;
    // Question 15.
    if page_len < page_length(set.m) {
        return Err(15);
    }
    let forecast = forecast_set(&set, method, basis)?;
    Ok(lines(&Tally::of_entries(&forecast.entries, set.m), set.m))
}

/// The heading, calendar years 1 to 2m - 2, and ALL with their totals.
fn lines(tally: &Tally, m: usize) -> String {
    let mut page = line("YEAR", "RBNS", "IBNR", "TOTAL");
    let (mut all_rbns, mut all_ibnr) = (Big::zero(), Big::zero());
    for t in 1..=2 * m - 2 {
        let [rbns, ibnr] = [tally.rbns[t - 1], tally.ibnr[t - 1]].map(Big::from);
        page += &line(t, &rbns, &ibnr, &rbns + &ibnr);
        all_rbns = all_rbns + rbns;
        all_ibnr = all_ibnr + ibnr;
    }
    page + &line("ALL", &all_rbns, &all_ibnr, &all_rbns + &all_ibnr)
}

/// A year 4 wide and three amounts 21 wide, all right-aligned.
fn line(year: impl Display, rbns: impl Display, ibnr: impl Display, total: impl Display) -> String {
    format!("{year:>4}{rbns:>21}{ibnr:>21}{total:>21}\n")
}
