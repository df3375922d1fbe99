//! A refusal for each question, and their order.

use reference::examples::{set, set_k, set_k_without_incurred, EDGES};
use reference::generate::{file, put_on_line};
use reference::page::page_length;
use reference::*;

fn dcl(file: &[u8], m: u64) -> Result<Forecast, Refusal> {
    forecast(file, m, 0, 1, 2_000)
}

/// The refusals of the calls that take a file alone: reader, shares, delays, claim costs.
fn of_file(file: &[u8], m: u64) -> [Option<Refusal>; 4] {
    [
        read_set(file, m).err(),
        shares(file, m).err(),
        delays(file, m).err(),
        claim_costs(file, m).err(),
    ]
}

/// Refused with this number by every call that takes a file, however short an output or a page is,
/// and whatever delays and dates are.
fn refused_by_all(file: &[u8], m: u64, refusal: Refusal) {
    assert_eq!(of_file(file, m), [Some(refusal); 4]);
    assert_eq!(dcl(file, m), Err(refusal));
    assert_eq!(forecast(file, m, 0, 1, 0), Err(refusal));
    assert_eq!(check_delays(file, m, &[]), Err(refusal));
    assert_eq!(forecast_with_delays(file, m, 0, 1, &[], 0), Err(refusal));
    assert_eq!(closing_page(file, m, 0, 1, 0), Err(refusal));
    assert_eq!(cash_in_window(file, m, 0, 1, &NO_DATES), Err(refusal));
    assert_eq!(back_test(file, m, 1, 0, 1), Err(refusal));
    assert_eq!(demand3(file, m).err(), Some(refusal));
    let text = closing(&[format!("{m} 0 1\n").as_bytes(), file].concat());
    assert_eq!(text, format!("refused {refusal}\n").into_bytes());
}

const NO_DATES: Window = Window {
    valuation: Date::new(0, 0, 0),
    start: Date::new(0, 0, 0),
    end: Date::new(0, 0, 0),
};

#[test]
fn question_1() {
    for m in [0, 1, 21, 22, 258, u64::MAX] {
        refused_by_all(&file(&set_k()), m, 1);
    }
}

#[test]
fn question_2() {
    let good = file(&set_k());
    for length in [0, 1, 15, 16, 95, 97, 112, 143] {
        refused_by_all(&good[..length], 2, 2);
    }
    refused_by_all(&[&good[..], &[0]].concat(), 2, 2);
    refused_by_all(&good, 3, 2);
    refused_by_all(&good, 20, 2);
}

#[test]
fn question_3() {
    let good = file(&set_k());
    let short = file(&set_k_without_incurred());
    // The first record is a count of cell (1,0), the second of (1,1), the third of (2,0).
    let changes = [
        (0, 3),
        (0, 255),
        (1, 0),
        (1, 3),
        (1, 255),
        (2, 2),
        (2, 255),
        (17, 2),
        (34, 1),
    ];
    for (at, byte) in changes {
        let mut damaged = good.clone();
        damaged[at] = byte;
        refused_by_all(&damaged, 2, 3);
        let mut damaged = short.clone();
        damaged[at] = byte;
        refused_by_all(&damaged, 2, 3);
    }
    let mut incurred_in_short = short.clone();
    incurred_in_short[0] = 2;
    refused_by_all(&incurred_in_short, 2, 3);
}

/// The bytes behind the line are zero in every record, on every line.
#[test]
fn question_3_of_spare_bytes() {
    for line in 0..=5 {
        for good in [set_k(), set_k_without_incurred()].map(|set| file(&set.on_line(line))) {
            let last = good.len() - 16;
            for record in [0, 32, last] {
                for (byte, value) in [(4, 1), (5, 255), (6, 5), (7, 128)] {
                    let mut damaged = good.clone();
                    damaged[record + byte] = value;
                    refused_by_all(&damaged, 2, 3);
                }
            }
        }
    }
}

/// All records stand on one line of 0 to 5.
#[test]
fn question_3_of_lines() {
    for good in [file(&set_k()), file(&set_k_without_incurred())] {
        let last = good.len() - 16;
        for line in 0..=255 {
            let mut moved = good.clone();
            put_on_line(&mut moved, line);
            let read = read_set(&moved, 2).map(|set| set.line);
            match line {
                0..=5 => assert_eq!(read, Ok(u64::from(line))),
                _ => assert_eq!(read, Err(3)),
            }
            // One record on another line than the rest: the first, a middle one, the last.
            for (record, other) in [(0, 0), (0, 5), (32, 1), (32, 255), (last, 0), (last, 6)] {
                let mut mixed = moved.clone();
                mixed[record + 3] = other;
                if other != line {
                    assert_eq!(read_set(&mixed, 2), Err(3), "{other} among {line}");
                }
            }
        }
        for (record, other) in [(0, 1), (0, 255), (32, 5), (last, 1), (last, 6)] {
            let mut mixed = good.clone();
            mixed[record + 3] = other;
            refused_by_all(&mixed, 2, 3);
        }
        for line in [6, 128, 255] {
            let mut moved = good.clone();
            put_on_line(&mut moved, line);
            refused_by_all(&moved, 2, 3);
        }
        // Half of them on one line and half on another.
        let mut mixed = good.clone();
        (0..=last).step_by(32).for_each(|at| mixed[at + 3] = 3);
        refused_by_all(&mixed, 2, 3);
    }
}

#[test]
fn question_4() {
    let good = file(&set_k());
    for (from, to) in [(0, 1), (8, 0), (3, 8)] {
        let mut doubled = good.clone();
        doubled.copy_within(16 * from..16 * from + 16, 16 * to);
        refused_by_all(&doubled, 2, 4);
        // With the other record's value kept.
        let mut doubled = good.clone();
        doubled.copy_within(16 * from..16 * from + 3, 16 * to);
        refused_by_all(&doubled, 2, 4);
    }
}

#[test]
fn question_5() {
    let good = file(&set_k());
    let ten_to_10 = 10_000_000_000i64;
    let with = |record: usize, value: i64| {
        let mut changed = good.clone();
        changed[16 * record + 8..16 * record + 16].copy_from_slice(&value.to_le_bytes());
        changed
    };
    for (record, value) in [
        (0, -1),
        (2, 10_000_001),
        (3, -1),
        (5, ten_to_10 + 1),
        (6, -ten_to_10 - 1),
        (8, ten_to_10 + 1),
        (0, i64::MIN),
        (8, i64::MAX),
    ] {
        refused_by_all(&with(record, value), 2, 5);
    }
    for (record, value) in [(0, 0), (0, 10_000_000), (3, ten_to_10), (8, -ten_to_10)] {
        assert!(read_set(&with(record, value), 2).is_ok());
    }
}

/// A lower number wins wherever its record stands.
#[test]
fn questions_3_to_5_go_over_the_whole_file() {
    for line in [0, 5] {
        let mut damaged = file(&set_k().on_line(line));
        damaged[8..16].copy_from_slice(&(-1i64).to_le_bytes());
        refused_by_all(&damaged, 2, 5);
        damaged.copy_within(7 * 16..8 * 16, 6 * 16);
        refused_by_all(&damaged, 2, 4);
        // A spare byte, another line and all on a line that there is not.
        for (from, byte, value) in [(8, 4, 1), (8, 3, 2), (0, 3, 6)] {
            let mut damaged = damaged.clone();
            let records = damaged[16 * from..].chunks_exact_mut(16);
            records.for_each(|record| record[byte] = value);
            refused_by_all(&damaged, 2, 3);
            damaged.pop();
            refused_by_all(&damaged, 2, 2);
        }
    }
}

#[test]
fn question_6() {
    let (long, short) = (file(&set_k()), file(&set_k_without_incurred()));
    for (method, basis) in [(3, 1), (0, 2), (256, 0), (u64::MAX, 0), (0, u64::MAX)] {
        assert_eq!(forecast(&long, 2, method, basis, 12), Err(6));
        assert_eq!(closing_page(&long, 2, method, basis, 0), Err(6));
        assert_eq!(back_test(&long, 2, 1, method, basis), Err(6));
    }
    for method in [1, 2] {
        assert_eq!(forecast(&short, 2, method, 1, 0), Err(6));
        assert_eq!(closing_page(&short, 2, method, 1, 0), Err(6));
        assert!(forecast(&long, 2, method, 1, 12).is_ok());
    }
    let mut damaged = short.clone();
    damaged[15] = 128;
    assert_eq!(forecast(&damaged, 2, 3, 1, 12), Err(5));
}

#[test]
fn question_7() {
    let no_counts = set(&[&[0, 0], &[90]], &[&[600, 400], &[660]], None);
    assert_eq!(forecast(&file(&no_counts), 2, 0, 1, 11), Err(7));
    assert_eq!(forecast(&file(&no_counts), 2, 0, 1, 12), Err(9));
    assert_eq!(forecast(&file(&set_k()), 2, 0, 1, 11), Err(7));
    assert!(forecast(&file(&set_k()), 2, 0, 1, 12).is_ok());
}

#[test]
fn question_8() {
    for c in [0, 1, 2, u64::MAX] {
        assert_eq!(back_test(&file(&set_k()), 2, c, 0, 1), Err(8));
    }
    let no_counts: &[&[i64]] = &[&[0, 0, 0], &[0, 0], &[0]];
    let three = set(no_counts, no_counts, None);
    assert_eq!(back_test(&file(&three), 3, 0, 0, 1), Err(8));
    assert_eq!(back_test(&file(&three), 3, 2, 0, 1), Err(8));
    assert_eq!(back_test(&file(&three), 3, 1, 0, 1), Err(9));
}

/// A page takes 15 in place of 7, before 9 on.
#[test]
fn question_15() {
    let k = file(&set_k());
    for length in [0, 1, 136, 271] {
        assert_eq!(closing_page(&k, 2, 0, 1, length), Err(15));
    }
    for length in [272, 273, usize::MAX] {
        assert!(closing_page(&k, 2, 0, 1, length).is_ok());
    }
}

/// Refused with this number by the page, and with 15 where it is a byte too short; 0 is "accepted".
fn refused_by_page(set: &Set, method: u64, refusal: Refusal) {
    let page = |length| closing_page(&file(set), set.m as u64, method, 0, length).err();
    assert_eq!(page(page_length(set.m)).unwrap_or(0), refusal);
    assert_eq!(page(page_length(set.m) - 1), Some(15));
}

/// Questions 9 to 11, which the forecast, shares, delays, claim costs and the page take.
fn unfit(set: &Set, refusal: Refusal) {
    let file = file(set);
    let m = set.m as u64;
    assert_eq!(
        of_file(&file, m),
        [None, Some(refusal), Some(refusal), Some(refusal)]
    );
    assert_eq!(dcl(&file, m), Err(refusal));
    refused_by_page(set, 0, refusal);
}

#[test]
fn question_9() {
    unfit(&set(&[&[0, 0], &[1]], &[&[0, 0], &[0]], None), 9);
    unfit(&set(&[&[1, 0], &[0]], &[&[0, 0], &[0]], None), 9);
    // A row may start with no counts.
    let late = set(
        &[&[1, 1, 0], &[0, 1], &[1]],
        &[&[1, 0, 0], &[1, 0], &[1]],
        None,
    );
    assert!(shares(&file(&late), 3).is_ok());
}

#[test]
fn question_10() {
    unfit(&set(&[&[1, 0], &[1]], &[&[0, 0], &[5]], None), 10);
    // B(1) = 0 and B(2) above zero.
    let counts: &[&[i64]] = &[&[1, 0, 0], &[1, 0], &[1]];
    unfit(&set(counts, &[&[0, 0, 5], &[0, 0], &[5]], None), 10);
    // B(1) above zero and B(2) = 0.
    unfit(&set(counts, &[&[0, 0, 0], &[5, 0], &[5]], None), 10);
}

#[test]
fn question_11() {
    // Both halves, and A(1) = 0 of counts and of paid.
    unfit(&set(&[&[1, 1000], &[1]], &[&[1, 0], &[1]], None), 11);
    unfit(&set(&[&[1, 0], &[1]], &[&[1, 1000], &[1]], None), 11);
    unfit(&set(&[&[0, 1], &[1]], &[&[1, 0], &[1]], None), 11);
    unfit(&set(&[&[1, 0], &[1]], &[&[0, 1], &[1]], None), 11);
    assert!(shares(&file(&set(&[&[1, 999], &[1]], &[&[1, 999], &[1]], None)), 2).is_ok());
}

#[test]
fn question_12() {
    let wide = set(&[&[25, 75], &[50]], &[&[751, 249], &[750]], None);
    let refused = [None, None, Some(12), None];
    assert_eq!(of_file(&file(&wide), 2), refused);
    assert_eq!(dcl(&file(&wide), 2), Err(12));
}

/// The refusals of methods 0 to 2, 0 where one accepts.
fn refused_by_methods(set: &Set, refusals: [Refusal; 3]) {
    let of_method = |method| forecast(&file(set), set.m as u64, method, 0, 2_000);
    let found = [0, 1, 2].map(|method| of_method(method).err().unwrap_or(0));
    assert_eq!(found, refusals);
    for (method, refusal) in (0..).zip(refusals) {
        refused_by_page(set, method, refusal);
    }
}

#[test]
fn questions_12_to_14_at_their_edges() {
    for edge in EDGES {
        refused_by_methods(&edge.rows.set(), edge.refused);
    }
}

/// g(1) leaves the range and g(0) is within it again.
#[test]
fn question_13_asks_every_share() {
    let counts: &[&[i64]] = &[&[1, 0, 0], &[1, 0], &[1]];
    let paid: &[&[i64]] = &[&[1, 0, 0], &[1, 0], &[1]];
    let incurred: &[&[i64]] = &[&[5, 0, -4], &[1, 29], &[1]];
    let wide = set(counts, paid, Some(incurred));
    let g = reference::shares::Triangle::new(3, &wide.incurred).g();
    let g: Vec<i64> = g.iter().map(|share| share.to_i64().unwrap()).collect();
    assert_eq!(g, [857_142_857, 5_000_000_000, 1_000_000_000]);
    refused_by_methods(&wide, [0, 13, 13]);
}

/// The back-test puts questions 9 on to the cut set only.
#[test]
fn back_test_asks_the_cut_set() {
    let late_fault = set(
        &[&[80, 20, 0], &[90, 25], &[0]],
        &[&[600, 400, 50], &[660, 430], &[700]],
        None,
    );
    assert_eq!(dcl(&file(&late_fault), 3), Err(9));
    assert!(back_test(&file(&late_fault), 3, 1, 0, 1).is_ok());
    let early_fault = set(
        &[&[80, 20, 0], &[0, 25], &[100]],
        &[&[600, 400, 50], &[660, 430], &[700]],
        None,
    );
    assert!(dcl(&file(&early_fault), 3).is_ok());
    assert_eq!(back_test(&file(&early_fault), 3, 1, 0, 1), Err(9));
}
