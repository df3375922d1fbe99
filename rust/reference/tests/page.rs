//! The closing page.

use reference::examples::{set, set_k, set_k_without_incurred};
use reference::generate::{case, file};
use reference::page::page_length;
use reference::records::place;
use reference::*;

/// The page of a set under method 0, basis 1.
fn dcl(set: &Set) -> Result<String, Refusal> {
    let m = set.m;
    closing_page(&file(set), m as u64, 0, 1, page_length(m))
}

#[test]
fn page_of_k() {
    let page = "\
YEAR                 RBNS                 IBNR                TOTAL
   1                  337                  165                  502
   2                    0                   69                   69
 ALL                  337                  234                  571
";
    assert_eq!(dcl(&set_k_without_incurred()), Ok(page.to_string()));
    assert_eq!(dcl(&set_k()), Ok(page.to_string()));
    assert_eq!(page.len(), page_length(2));
}

/// A minus sign stands right before the amount, in the totals too.
#[test]
fn negative_amounts() {
    let widest = set(&[&[25, 75], &[50]], &[&[750, 250], &[750]], None);
    let page = "\
YEAR                 RBNS                 IBNR                TOTAL
   1                -8000                 2250                -5750
   2                    0                -6000                -6000
 ALL                -8000                -3750               -11750
";
    assert_eq!(dcl(&widest), Ok(page.to_string()));
}

/// The longest page: its years have two digits.
#[test]
fn page_of_twenty_years() {
    let mut twenty = Set::empty(20, false);
    for i in 1..=20 {
        twenty.counts[place(i, 0)] = 1;
        twenty.paid[place(i, 0)] = 1;
    }
    let page = dcl(&twenty).unwrap();
    let lines: Vec<&str> = page.lines().collect();
    assert_eq!((page.len(), lines.len()), (2_720, 40));
    assert!(lines[9].starts_with("   9 ") && lines[10].starts_with("  10 "));
    assert!(lines[38].starts_with("  38 ") && lines[39].starts_with(" ALL "));
}

/// A line's fields without the spaces before them, and with ALL as T, in the form of `closing`.
fn read_back(line: &str) -> String {
    let columns = [0..4, 4..25, 25..46, 46..67];
    let [year, amounts @ ..] = columns.map(|columns| line[columns].trim_start_matches(' '));
    let year = if year == "ALL" { "T" } else { year };
    format!("{year} {}\n", amounts.join(" "))
}

/// Every page has 2m lines of 67 characters and a newline, and its fields are what `closing`
/// prints.
#[test]
fn fields_are_what_closing_prints() {
    let (mut pages, mut negative) = (0, 0);
    for seed in 0..1_500 {
        let case = case(seed);
        let (m, method, basis) = (case.m, case.method, case.basis);
        let Ok(page) = closing_page(&case.file, m, method, basis, usize::MAX) else {
            continue;
        };
        let lines: Vec<&str> = page.split_terminator('\n').collect();
        assert!(lines.iter().all(|line| line.len() == 67 && line.is_ascii()));
        assert_eq!(
            (page.len(), lines.len()),
            (136 * m as usize, 2 * m as usize)
        );
        let fields: String = lines[1..].iter().map(|line| read_back(line)).collect();
        let line = format!("{m} {method} {basis}\n");
        let printed = closing(&[line.as_bytes(), &case.file].concat());
        assert_eq!(fields.as_bytes(), printed, "seed {seed}");
        pages += 1;
        negative += usize::from(fields.contains('-'));
    }
    assert!(pages > 500 && negative > 200, "{pages} {negative}");
}
