//! Source document 002's triangles.

use reference::generate::file;
use reference::source_002::{compare, set, COUNTS, PAID, PRINTED, PRINTED_TOTAL};
use reference::*;

#[test]
fn accepted_as_plain_dcl() {
    let file = file(&set());
    assert!(forecast(&file, 10, 0, 1, 380).is_ok());
    assert!(demand3(&file, 10).unwrap().iter().all(|year| year.within));
    let text = closing(&[b"10 0 1\n", &file[..]].concat());
    assert_eq!(text.iter().filter(|&&byte| byte == b'\n').count(), 19);
}

#[test]
fn tables_are_whole() {
    // Padding is zero, and the printed years add up to the printed total within their rounding.
    for i in 1..=10 {
        assert!(COUNTS[i - 1][11 - i..].iter().all(|&count| count == 0));
        assert!(PAID[i - 1][11 - i..].iter().all(|&paid| paid == 0));
    }
    assert!((PRINTED.iter().sum::<i64>() - PRINTED_TOTAL).abs() <= 5);
}

/// In hundredths of a unit: the printed column comes within 7.29 of the unrounded chain ladder in
/// a calendar year and 16.25 in all; the forecast below delay m within 1.3.
#[test]
fn how_near_the_printed_chain_ladder_comes() {
    let found = compare().unwrap();
    let hundredths = |fraction: &fraction::Fraction| {
        let (rounded, _) =
            (fraction.billionths() + Big::from(5_000_000i64)).div_rem(&Big::from(10_000_000i64));
        rounded.to_i64().unwrap()
    };
    let printed: Vec<i64> = found.printed.iter().map(hundredths).collect();
    let forecast: Vec<i64> = found.forecast.iter().map(hundredths).collect();
    println!("printed {printed:?}, forecast {forecast:?}");
    assert_eq!(printed.iter().max(), Some(&729));
    assert_eq!(hundredths(&found.printed_total), 1625);
    assert!(forecast.iter().all(|&distance| distance <= 130));
}
