//! Properties of many generated sets, and what the generator reaches.

use reference::forecast::{entry, entry_count};
use reference::generate::{any_set, case, file, Case, Random};
use reference::*;
use std::collections::BTreeMap;

const SEEDS: u64 = 6_000;

/// What is wrong with the line of a file in which nothing else is wrong: a record that stands apart
/// from all others, all of them on a line that there is not, or a spare byte.
fn wrong_line(case: &Case) -> Option<&'static str> {
    let mut mended = case.file.clone();
    let records = mended.chunks_exact_mut(16);
    records.for_each(|record| record[3..8].fill(0));
    if read_set(&case.file, case.m) != Err(3) || read_set(&mended, case.m).is_err() {
        return None;
    }
    let column = |byte: usize| -> Vec<u8> {
        let records = case.file.chunks_exact(16);
        records.map(|record| record[byte]).collect()
    };
    for (byte, name) in [(4, "byte 4"), (5, "byte 5"), (6, "byte 6"), (7, "byte 7")] {
        if column(byte).iter().any(|&value| value != 0) {
            return Some(name);
        }
    }
    let lines = column(3);
    let [first, middle @ .., last] = &lines[..] else {
        panic!("a file without records");
    };
    let same = |list: &[u8], line: &u8| list.iter().all(|each| each == line);
    match first == last {
        true if same(middle, first) => Some("line above 5"),
        true => Some("middle record"),
        false if same(middle, last) => Some("first record"),
        false if same(middle, first) => Some("last record"),
        false => Some("several records"),
    }
}

#[test]
fn every_refusal_and_every_kind_of_acceptance_occurs() {
    let mut refused = BTreeMap::new();
    let mut accepted = BTreeMap::new();
    let mut sizes = BTreeMap::new();
    let (mut lines, mut wrong_lines) = (BTreeMap::new(), BTreeMap::new());
    for seed in 0..SEEDS {
        let case = case(seed);
        match forecast(&case.file, case.m, case.method, case.basis, case.out_len) {
            Ok(found) => {
                *accepted.entry((case.method, case.basis)).or_insert(0) += 1;
                *sizes.entry(case.m).or_insert(0) += 1;
                *lines.entry(found.line).or_insert(0) += 1;
            }
            Err(refusal) => *refused.entry(refusal).or_insert(0) += 1,
        }
        if let Some(fault) = wrong_line(&case) {
            *wrong_lines.entry(fault).or_insert(0) += 1;
        }
        if back_test(&case.file, case.m, case.cut, case.method, case.basis) == Err(8) {
            *refused.entry(8).or_insert(0) += 1;
        }
    }
    println!("refused {refused:?}\naccepted {accepted:?}\nby m {sizes:?}");
    println!("by line {lines:?}\nwrong lines {wrong_lines:?}");
    assert!(
        (1..=14).all(|refusal| refused.get(&refusal) > Some(&50)),
        "{refused:?}"
    );
    for method in 0..3 {
        for basis in 0..2 {
            assert!(accepted.get(&(method, basis)) > Some(&200), "{accepted:?}");
        }
    }
    assert!((2..=20).all(|m| sizes.get(&m) > Some(&10)), "{sizes:?}");
    assert!(
        (0..=5).all(|line| lines.get(&line) > Some(&300)),
        "{lines:?}"
    );
    for fault in [
        "first record",
        "middle record",
        "last record",
        "line above 5",
        "byte 4",
        "byte 5",
        "byte 6",
        "byte 7",
    ] {
        assert!(wrong_lines.get(fault) > Some(&10), "{wrong_lines:?}");
    }
}

/// Delays above 10^9 and below -10^9 in one accepted set, for small and large m; delays at the
/// limits of question 12; IDCL's special years.
#[test]
fn special_sets_occur() {
    let (mut wild, mut wild_large, mut near) = (0, 0, 0);
    let (mut positive, mut negative, mut below_zero) = (0, 0, 0);
    let (mut unpaid, mut rounded_away, mut by_share) = (0, 0, 0);
    for seed in 0..SEEDS {
        let case = case(seed);
        let Ok(found) = forecast(&case.file, case.m, case.method, case.basis, usize::MAX) else {
            continue;
        };
        let p = delays(&case.file, case.m).unwrap().p;
        let swings = p.iter().any(|&p| p > 1_000_000_000) && p.iter().any(|&p| p < -1_000_000_000);
        wild += usize::from(swings);
        wild_large += usize::from(swings && case.m >= 12);
        near += usize::from(p.iter().any(|p| p.abs() > 7_999_900_000));
        if case.method != 2 {
            continue;
        }
        let set = read_set(&case.file, case.m).unwrap();
        let estimates = reference::shares::estimates(&set).unwrap();
        let bases = row_bases::row_bases(&set, &estimates, 2).ok().unwrap();
        below_zero += usize::from(bases.v.iter().any(Big::is_negative));
        for i in 2..=set.m {
            let paid = estimates.paid.latest(i);
            if estimates.u[i - 1] != paid {
                continue;
            }
            positive += usize::from(found.leftovers[i - 1] > 0);
            negative += usize::from(found.leftovers[i - 1] < 0);
            let settled = estimates.g[set.m - i] == rounding::scale();
            by_share += usize::from(settled && !paid.is_zero());
            unpaid += usize::from(!settled && paid.is_zero());
            rounded_away += usize::from(!settled && !paid.is_zero());
        }
    }
    let delays = [wild, wild_large, near];
    let years = [
        positive,
        negative,
        below_zero,
        unpaid,
        rounded_away,
        by_share,
    ];
    println!("delays {delays:?} years {years:?}");
    assert!(delays.iter().all(|&times| times > 50), "{delays:?}");
    assert!(years.iter().all(|&times| times > 50), "{years:?}");
}

#[test]
fn demand_3_holds() {
    let mut accepted = 0;
    let mut closest = Big::zero();
    for seed in 0..SEEDS {
        let case = case(seed);
        let Ok(years) = demand3(&case.file, case.m) else {
            continue;
        };
        accepted += 1;
        for (at, year) in years.iter().enumerate() {
            assert!(year.within, "seed {seed}, year {}", at + 1);
            closest = closest.max(year.closeness());
        }
        assert!(years[0].distance.upper.is_zero());
    }
    println!("{accepted} files, at most {closest} billionths of the bound");
    assert!(accepted > 2_000, "{accepted}");
    assert!(closest > Big::from(500_000_000i64) && closest <= Big::from(1_000_000_000i64));
}

/// Known cells are zero, and year i has no RBNS where every reported claim's last delay has passed.
#[test]
fn known_cells_are_zero() {
    for seed in 0..2_000 {
        let case = case(seed);
        let Ok(found) = forecast(&case.file, case.m, case.method, case.basis, usize::MAX) else {
            continue;
        };
        let m = case.m as usize;
        assert_eq!(found.entries.len(), entry_count(m));
        for i in 1..=m {
            for j in 0..2 * m - 1 {
                let at = entry(m, i, j);
                assert!(i + j > m || found.entries[at..at + 2] == [0, 0]);
                assert!(j < 2 * m - i || found.entries[at] == 0);
                assert!(i > 1 || found.entries[at + 1] == 0);
            }
        }
    }
}

/// The number of cells is s - 1, s - 2, .. summed over the cut years that have one, and a sum's
/// error never exceeds the sum of its parts' errors.
#[test]
fn back_tests_are_consistent() {
    let mut accepted = 0;
    for seed in 0..2_000 {
        let case = case(seed);
        let Ok(found) = back_test(&case.file, case.m, case.cut, case.method, case.basis) else {
            continue;
        };
        let s = case.m - case.cut;
        let cells: u64 = (1..=case.cut.min(s - 1)).map(|t| s - t).sum();
        assert_eq!(found.cells, cells);
        assert!(found.overall <= found.yearwise && found.yearwise <= found.cellwise);
        accepted += 1;
    }
    assert!(accepted > 500);
}

/// A back-test that cuts one year off a set that continues its own forecast finds no error.
#[test]
fn back_test_of_a_forecast_finds_no_error() {
    let mut random = Random::new(5);
    let mut tested = 0;
    for _ in 0..3_000 {
        let set = any_set(&mut random);
        let (s, m) = (set.m, set.m + 1);
        let Ok(found) = forecast(&file(&set), s as u64, 0, 1, usize::MAX) else {
            continue;
        };
        if m > 20 {
            continue;
        }
        let mut longer = set.clone();
        longer.m = m;
        for i in 2..=s {
            let at = entry(s, i, m - i);
            longer.paid[records::place(i, m - i)] = found.entries[at] + found.entries[at + 1];
        }
        let in_range = |paid: &i64| records::range(1).contains(paid);
        if !longer.paid.iter().all(in_range) {
            continue;
        }
        let found = back_test(&file(&longer), m as u64, 1, 0, 1).unwrap();
        let errors = [found.cellwise, found.yearwise, found.overall];
        assert_eq!((found.cells, errors), (s as u64 - 1, [0; 3]));
        tested += 1;
    }
    assert!(tested > 500, "{tested}");
}
