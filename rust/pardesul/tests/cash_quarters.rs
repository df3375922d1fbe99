//! The example that prints the cash of each quarter, and its table in README.md.

#[allow(dead_code)]
#[path = "../examples/cash_quarters.rs"]
mod cash_quarters;

use pardesul::{Basis, Date, Method, Triangle, TriangleSet};
use std::fs::read_to_string;
use std::path::Path;

fn set_k() -> TriangleSet {
    TriangleSet {
        m: 2,
        line: 0,
        counts: Triangle::from_rows(&[&[80, 20], &[90]]),
        paid: Triangle::from_rows(&[&[600, 400], &[660]]),
        incurred: None,
    }
}

fn table(set: &TriangleSet, valuation: &str) -> Vec<String> {
    let valuation = cash_quarters::date(valuation).unwrap();
    let table = cash_quarters::table(set, Method::Dcl, Basis::Estimated, valuation);
    table.unwrap().lines().map(str::to_string).collect()
}

#[test]
fn table_of_the_readme() {
    let readme = Path::new(env!("CARGO_MANIFEST_DIR")).join("../../README.md");
    let readme = read_to_string(readme).unwrap();
    let shown: Vec<&str> = readme
        .lines()
        .skip_while(|line| !line.starts_with("    2023-12-31"))
        .map_while(|line| line.strip_prefix("    "))
        .collect();
    assert_eq!(shown, table(&set_k(), "2023-12-31"));
}

/// Quarters of a leap day end on the last day of a short month, and add up.
#[test]
fn quarters_of_a_leap_day() {
    let table = table(&set_k(), "2024-02-29");
    let ends: Vec<&str> = table[..8].iter().map(|line| &line[12..22]).collect();
    let wanted = "2024-05-29 2024-08-29 2024-11-29 2025-02-28 2025-05-29 2025-08-29 2025-11-29 \
                  2026-02-28";
    assert_eq!(ends.join(" "), wanted);
    let amounts = table[..8].iter().map(|line| line[22..].trim());
    let sum: i64 = amounts.map(|amount| amount.parse::<i64>().unwrap()).sum();
    assert_eq!(sum, 571);
    assert_eq!(table[8].trim(), "571");
}

#[test]
fn wrong_words_are_named() {
    let said = |text| cash_quarters::date(text).unwrap_err().to_string();
    assert!(said("2024-02-30").starts_with("refused 19"));
    assert!(said("2024-02").starts_with("2024-02 is not"));
    assert!(said("2024-x-1").starts_with("x: invalid digit"));
}

#[test]
fn refusals() {
    let mut set = set_k();
    let refusal = |set: &TriangleSet, year| {
        let date = Date::new(year, 1, 1).unwrap();
        let table = cash_quarters::table(set, Method::Dcl, Basis::Estimated, date);
        table.unwrap_err().number()
    };
    assert_eq!(refusal(&set, 1899), 19);
    assert_eq!(refusal(&set, 2200), 19);
    set.counts.set(2, 0, 0);
    assert_eq!(refusal(&set, 1899), 9);
    set.m = 0;
    assert_eq!(refusal(&set, 2000), 1);
}
