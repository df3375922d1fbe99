//! The tally of a journal is laid out as in C, and a journal's numbers are written whole.

use pardesul::{Journal, JournalTally};
use std::mem::{align_of, offset_of, size_of};

#[test]
fn layout_of_the_tally() {
    let offsets = [
        offset_of!(JournalTally, claims),
        offset_of!(JournalTally, counts),
        offset_of!(JournalTally, paid),
        offset_of!(JournalTally, last),
    ];
    assert_eq!(offsets, [0, 4_096, 7_296, 10_496]);
    let sizes = [size_of::<JournalTally>(), align_of::<JournalTally>()];
    assert_eq!(sizes, [10_504, 8]);
}

#[test]
fn bytes_of_a_journal() {
    let mut journal = Journal::new();
    assert_eq!(journal.bytes(), [0; 0]);
    journal.report(258, 3, 4).pay(4_095, 1, 20, 511);
    let report = [2, 1, 0, 0, 0, 3, 4, 0, 0, 0, 0, 0, 0, 0, 0, 0];
    let payment = [255, 15, 0, 0, 1, 1, 20, 0, 255, 1, 0, 0, 0, 0, 0, 0];
    assert_eq!(journal.bytes(), [report, payment].concat());
}

/// Every number of its type comes back from the bytes as it was handed in.
#[test]
fn numbers_are_not_cut() {
    for (claim, year) in [(4_096, 0), (70_000, 21), (u32::MAX, 255)] {
        for amount in [i64::MIN, -1, i64::MAX] {
            let mut journal = Journal::new();
            journal.report(claim, year, 255 - year);
            journal.pay(claim, year, 255 - year, amount);
            for (transaction, kind) in journal.bytes().chunks(16).zip([0, 1]) {
                assert_eq!(transaction[..4], claim.to_le_bytes());
                assert_eq!(transaction[4..8], [kind, year, 255 - year, 0]);
                let amount = if kind == 0 { 0 } else { amount };
                assert_eq!(transaction[8..], amount.to_le_bytes());
            }
            assert_eq!(journal.replay(20).unwrap_err().number(), 16);
        }
    }
}

/// Transactions behind bytes that are not whole leave them so, and one too many is refused.
#[test]
fn lengths_are_refused() {
    for odd in [1, 8, 15] {
        let mut journal = Journal::from_bytes(vec![0; odd]);
        journal.report(17, 1, 1);
        assert_eq!(journal.bytes().len(), odd + 16);
        assert_eq!(journal.replay(2).unwrap_err().number(), 16);
    }
    let mut journal = Journal::new();
    for claim in 0..4_096 {
        journal.report(claim, 1, 1);
    }
    assert_eq!(journal.replay(2).unwrap().counts[0], 4_096);
    journal.pay(0, 1, 1, 1);
    assert_eq!(journal.replay(2).unwrap_err().number(), 16);
    assert_eq!(journal.to_set(21).unwrap_err().number(), 1);
}
