//! Every example of the documents, and values that follow from their formulas by hand.

use reference::examples::{set, set_k, EXAMPLES};
use reference::forecast::entry;
use reference::generate::file;
use reference::*;

/// A list of 20 that starts with these numbers.
fn list(start: &[i64]) -> [i64; 20] {
    let mut list = [0; 20];
    list[..start.len()].copy_from_slice(start);
    list
}

/// RBNS and IBNR of a cell.
fn cell(forecast: &Forecast, m: usize, i: usize, j: usize) -> (i64, i64) {
    let at = entry(m, i, j);
    (forecast.entries[at], forecast.entries[at + 1])
}

#[test]
fn printed_examples() {
    for example in EXAMPLES {
        assert_eq!(example.check(&example.calculated()), Ok(()));
    }
}

/// All entries of K, and no leftovers: year 1 has R = 0 and keeps its tail under IDCL too.
#[test]
fn entries_of_k() {
    let forecast = |method| forecast(&file(&set_k()), 2, method, 1, 12).unwrap();
    let entries = [0, 0, 0, 0, 62, 0, 0, 0, 275, 165, 0, 69];
    assert_eq!(forecast(0).entries, entries);
    assert_eq!(cell(&forecast(2), 2, 1, 2), (62, 0));
    assert_eq!(forecast(0).leftovers, [0; 20]);
    assert_eq!(forecast(2).leftovers, [0; 20]);
}

#[test]
fn row_bases_of_k() {
    let set = set_k();
    let estimates = reference::shares::estimates(&set).unwrap();
    let base = |method: u64| {
        let bases = row_bases::row_bases(&set, &estimates, method).ok().unwrap();
        bases.v[1].to_i64().unwrap()
    };
    assert_eq!([base(0), base(1), base(2)], [1100, 1200, 1350]);
}

/// Basis 0 of year 1: s(1) = r(20 × S / 100) = b(1); of year 2: s(0) = r(90 × 0.8 S / 90).
#[test]
fn actual_counts_of_k() {
    for method in 0..3 {
        let actual = forecast(&file(&set_k()), 2, method, 0, 12).unwrap();
        let estimated = forecast(&file(&set_k()), 2, method, 1, 12).unwrap();
        assert_eq!(actual, estimated);
    }
}

/// g(0) of row 1 with counts 1, 1000 is 999,001; with 1, 999 it is 10^6.
#[test]
fn least_first_share() {
    let first = |late: i64| {
        let set = set(&[&[1, late], &[90]], &[&[600, 400], &[660]], None);
        let g = reference::shares::Triangle::new(2, &set.counts).g();
        g[0].to_i64()
    };
    assert_eq!(first(1000), Some(999_001));
    assert_eq!(first(999), Some(1_000_000));
}

#[test]
fn claim_costs_of_k() {
    let costs = claim_costs(&file(&set_k()), 2).unwrap();
    assert_eq!(costs.mu, 10.0);
    assert_eq!(costs.factors[0], 1000.0 / 600.0);
    assert_eq!(costs.factors[1..], [0.0; 19]);
    assert_eq!(costs.inflations[0], Inflation::BaseYear);
    assert_eq!(costs.inflations[1], Inflation::Ratio(1100.0 / 112.0 / 10.0));
    assert_eq!(costs.inflations[2..], [Inflation::NoPaymentsYet; 18]);
}

/// An inflation is U / N, then divided by mu: 9 / 5 / 7, and not 9 / 35.
#[test]
fn inflation_by_two_divisions() {
    let set = set(&[&[1, 0], &[5]], &[&[7, 0], &[9]], None);
    let costs = claim_costs(&file(&set), 2).unwrap();
    let Inflation::Ratio(ratio) = costs.inflations[1] else {
        panic!("{:?}", costs.inflations[1]);
    };
    assert_eq!(ratio.to_bits(), (9.0f64 / 5.0 / 7.0).to_bits());
    assert_ne!(ratio.to_bits(), (9.0f64 / 35.0).to_bits());
}

/// Actual counts in thirds, where the rounding of s(k) shows in the cells.
#[test]
fn reported_shares_are_rounded() {
    let billion = 1_000_000_000;
    let set = set(
        &[&[1, 1, 1], &[2, 1], &[1]],
        &[
            &[6 * billion, 3 * billion, billion],
            &[7 * billion, 5 * billion / 2],
            &[6_400_000_001],
        ],
        None,
    );
    let estimates = reference::shares::estimates(&set).unwrap();
    let s = |i: usize| -> Vec<i64> {
        let shares = reference::forecast::reported_shares(&estimates, i, 0);
        shares.iter().map(|share| share.to_i64().unwrap()).collect()
    };
    assert_eq!(s(1), [333_333_333; 3]);
    // 2 × 666666667 / 3 and 666666667 / 3.
    assert_eq!(s(2), [444_444_445, 222_222_222]);
    let p = delays(&file(&set), 3).unwrap().p;
    assert_eq!(p[1] + p[2], -1_195_945_943);
    // 10^10 × 333333333 × -1195945943 / 10^18 = -3986486472.68; with thirds it would be ..477.
    let forecast = forecast(&file(&set), 3, 0, 0, 30).unwrap();
    assert_eq!(cell(&forecast, 3, 1, 3), (-3_986_486_473, 0));
}

/// A year without payments: no inflation, and all of W is left over under IDCL.
#[test]
fn year_without_payments() {
    let set = set(
        &[&[80, 20], &[90]],
        &[&[600, 400], &[0]],
        Some(&[&[900, 150], &[1080]]),
    );
    let costs = claim_costs(&file(&set), 2).unwrap();
    assert_eq!(costs.inflations[1], Inflation::NoPaymentsYet);
    let idcl = forecast(&file(&set), 2, 2, 1, 12).unwrap();
    // W = 1050, and r(1080 × S / 857142857) = 1260.
    assert_eq!(idcl.leftovers, list(&[50, 1260]));
    assert_eq!(cell(&idcl, 2, 2, 1), (0, 0));
}

/// A reserve that rounds away: U = r(100 × S / 999000000) = 100; W = 40 is 60 below what is paid.
#[test]
fn reserve_that_rounds_away() {
    let set = set(
        &[&[80, 20], &[90]],
        &[&[999, 1], &[100]],
        Some(&[&[900, 0], &[40]]),
    );
    let idcl = forecast(&file(&set), 2, 2, 1, 12).unwrap();
    assert_eq!(idcl.leftovers, list(&[-100, -60]));
}
