//! `replay` on any m and bytes: the head is m, 8 bytes, least byte first.
#![no_main]

use compare::Difference;
use fuzz::{any_m, fuzz, numbers, Target};
use reference::generate::{journal_case, Random};
use reference::journal::MOST_AMOUNT;

const REPLAY: Target = Target {
    compare,
    generate,
    head: |input| input.len().min(8),
    any_head: |random| any_m(random).to_le_bytes().to_vec(),
    change_record,
};

fuzz!(REPLAY);

fn compare(seed: u64, input: &[u8]) -> Result<(), Difference> {
    let ([m], journal) = numbers(input);
    compare::replay(seed, journal, m)
}

fn generate(seed: u64) -> Vec<u8> {
    let case = journal_case(seed);
    [&case.m.to_le_bytes()[..], &case.journal].concat()
}

/// Changes a transaction: as a whole, or its claim, its kind and years, or its amount.
fn change_record(random: &mut Random, transactions: &mut [[u8; 16]]) {
    let length = transactions.len();
    let (at, other) = (random.below(length), random.below(length));
    let from = transactions[other];
    let own = &mut transactions[at];
    match random.below(12) {
        0 => transactions.swap(at, other),
        1 => *own = from,
        2 | 3 => own[..4].copy_from_slice(&from[..4]),
        4 => {
            let claim = random.pick(&[0, 1, 4_095, 4_096, 1 << 16, 1 << 24]);
            own[..4].copy_from_slice(&u32::to_le_bytes(claim));
        }
        5 | 6 => own[5..7].copy_from_slice(&from[5..7]),
        7 => own[4] = random.pick(&[0, 1, 1, 2]),
        8 => {
            let byte = 5 + random.below(2);
            own[byte] = own[byte].wrapping_add(random.pick(&[1, 255]));
        }
        9 => own[4 + random.below(4)] = random.pick(&[0, 1, 2, 19, 20, 21, 128, 255]),
        _ => {
            let amount = any_amount(random, from);
            own[8..].copy_from_slice(&amount.to_le_bytes());
        }
    }
}

/// An amount at an edge of its range, or one that takes another to its end.
fn any_amount(random: &mut Random, other: [u8; 16]) -> i64 {
    let paid = i64::from_le_bytes(other[8..].try_into().unwrap());
    let rest = MOST_AMOUNT.wrapping_sub(paid);
    match random.below(8) {
        0 | 1 => 0,
        2 => random.pick(&[1, MOST_AMOUNT - 1, MOST_AMOUNT]),
        3 => random.pick(&[-1, MOST_AMOUNT + 1, i64::MIN, i64::MAX]),
        4 => random.of_digits(10),
        5 => paid,
        6 => rest,
        _ => rest.wrapping_add(1),
    }
}
