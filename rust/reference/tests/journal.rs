//! The claims journal.

use reference::generate::{any_journal, journal_case, Fault, Made, Random, Spot, PAIRS};
use reference::journal::{journal, CLAIMS, MOST, MOST_AMOUNT, PAID};
use reference::records::place;
use reference::*;
use std::collections::BTreeMap;

const EMPTY: JournalTally = JournalTally {
    claims: [0; CLAIMS],
    counts: [0; 400],
    paid: [0; 400],
    last: 0,
};

fn report(claim: u32, accident_year: u8, calendar_year: u8) -> Transaction {
    Transaction::report(claim, accident_year, calendar_year)
}

fn payment(claim: u32, accident_year: u8, calendar_year: u8, amount: i64) -> Transaction {
    Transaction::payment(claim, accident_year, calendar_year, amount)
}

fn answer(list: &[Transaction], m: u64) -> Result<JournalTally, Refusal> {
    replay(&journal(list), m)
}

fn refused(list: &[Transaction], m: u64, refusal: Refusal) {
    assert_eq!(answer(list, m).err(), Some(refusal), "{list:?}");
}

fn accepted(list: &[Transaction], m: u64) -> JournalTally {
    answer(list, m).unwrap_or_else(|refusal| panic!("refused {refusal}: {list:?}"))
}

#[test]
fn bytes_of_a_transaction() {
    let bytes = [2, 1, 0, 0, 1, 3, 4, 0, 255, 1, 0, 0, 0, 0, 0, 0];
    assert_eq!(payment(258, 3, 4, 511).bytes(), bytes);
    assert_eq!(Transaction::read(&bytes), payment(258, 3, 4, 511));
    let bytes = [255, 15, 0, 0, 0, 1, 20, 0, 0, 0, 0, 0, 0, 0, 0, 0];
    assert_eq!(report(4_095, 1, 20).bytes(), bytes);
    let negative = [254, 255, 255, 255, 255, 255, 255, 255];
    assert_eq!(payment(0, 1, 1, -2).bytes()[8..], negative);
    let spoilt = [1, 2, 3, 4, 5, 6, 7, 8, 9, 10, 11, 12, 13, 14, 15, 16];
    assert_eq!(Transaction::read(&spoilt).bytes(), spoilt);
    assert_eq!(Transaction::read(&spoilt).zero, 8);
}

#[test]
fn reports_are_counted_and_payments_added() {
    let list = [
        report(7, 1, 1),
        payment(7, 1, 1, 600),
        report(4_095, 1, 2),
        report(0, 2, 2),
        payment(0, 2, 2, 60),
        payment(7, 1, 2, 390),
        payment(4_095, 1, 2, 10),
        payment(0, 2, 2, 600),
        report(8, 1, 2),
        payment(0, 2, 3, 0),
    ];
    let mut wanted = EMPTY;
    (wanted.claims[0], wanted.claims[4_095]) = (2, 1);
    (wanted.claims[7], wanted.claims[8]) = (1, 1);
    wanted.counts[place(1, 0)] = 1;
    wanted.counts[place(1, 1)] = 2;
    wanted.counts[place(2, 0)] = 1;
    wanted.paid[place(1, 0)] = 600;
    wanted.paid[place(1, 1)] = 400;
    wanted.paid[place(2, 0)] = 660;
    wanted.last = 3;
    assert_eq!(accepted(&list, 3), wanted);
    assert_eq!(accepted(&list, 20), wanted);
    refused(&list, 2, 16);
}

#[test]
fn an_empty_journal() {
    for m in 2..=20 {
        assert_eq!(accepted(&[], m), EMPTY);
    }
}

#[test]
fn years_come_first() {
    let odd = [0; 17];
    let long = vec![0; 16 * MOST + 16];
    for m in [0, 1, 21, 258, 2 + (1 << 32), u64::MAX] {
        refused(&[], m, 1);
        refused(&[payment(4_096, 0, 0, -1)], m, 1);
        assert_eq!(replay(&odd, m).err(), Some(1));
        assert_eq!(replay(&long, m).err(), Some(1));
    }
}

/// The length is asked before any transaction, here one that 17 refuses.
#[test]
fn length_of_a_journal() {
    for length in [1, 8, 15, 17, 31, 33] {
        let bytes = journal(&[payment(1, 1, 1, 1); 3]);
        assert_eq!(replay(&bytes[..length], 2).err(), Some(16));
    }
    let reports: Vec<Transaction> = (0..MOST as u32).map(|claim| report(claim, 1, 1)).collect();
    let tally = accepted(&reports, 2);
    assert_eq!((tally.claims, tally.last), ([1; CLAIMS], 1));
    assert_eq!(tally.counts[0], 4_096);
    let full = journal(&reports);
    assert_eq!(full.len(), 65_536);
    for more in [1, 15, 16, 17, 65_536] {
        let bytes = [&full[..], &full[..more]].concat();
        assert_eq!(replay(&bytes, 2).err(), Some(16), "{more} bytes more");
    }
    let mut other = reports;
    other[MOST - 1] = payment(0, 1, 1, 5);
    assert_eq!(accepted(&other, 2).paid[0], 5);
    other.push(payment(0, 1, 1, 5));
    refused(&other, 2, 16);
    other[0] = payment(0, 1, 1, 5);
    refused(&other, 2, 16);
    other.pop();
    refused(&other, 2, 17);
}

/// For each field the last good values and the first bad ones.
#[test]
fn edges_of_fields() {
    for m in [2u8, 9, 20] {
        let years = u64::from(m);
        let both = |change: &dyn Fn(&mut Transaction)| {
            let (mut reported, mut paid) = (report(5, 1, 1), payment(5, 1, 1, 1));
            change(&mut reported);
            change(&mut paid);
            // The payment's claim is reported under the payment's year.
            let before = report(paid.claim.min(4_095), paid.accident_year.clamp(1, m), m);
            let before = Transaction {
                calendar_year: before.accident_year,
                ..before
            };
            (vec![reported], vec![before, paid])
        };
        let good = |change: &dyn Fn(&mut Transaction)| {
            let (reported, paid) = both(change);
            accepted(&reported, years);
            accepted(&paid, years);
        };
        let bad = |change: &dyn Fn(&mut Transaction)| {
            let (reported, paid) = both(change);
            refused(&reported, years, 16);
            refused(&paid, years, 16);
        };
        for claim in [0, 4_095] {
            good(&|each| each.claim = claim);
        }
        for claim in [4_096, 5 + (1 << 16), 5 + (1 << 24), 1 << 31, u32::MAX] {
            bad(&|each| each.claim = claim);
        }
        for kind in [2, 3, 128, 255] {
            bad(&|each| each.kind = kind);
        }
        for (accident, calendar) in [(1, 1), (1, m), (m, m), (2, 2)] {
            good(&|each| (each.accident_year, each.calendar_year) = (accident, calendar));
        }
        for (accident, calendar) in [
            (0, 0),
            (0, 1),
            (m + 1, m),
            (m + 1, m + 1),
            (255, 255),
            (1, 0),
            (2, 1),
            (m, m - 1),
            (1, m + 1),
            (m, m + 1),
            (1, 255),
        ] {
            bad(&|each| (each.accident_year, each.calendar_year) = (accident, calendar));
        }
        for byte in [1, 2, 128, 255] {
            bad(&|each| each.zero = byte);
        }
        for amount in [-1, MOST_AMOUNT + 1, i64::MIN, i64::MAX] {
            bad(&|each| each.amount = amount);
        }
        for amount in [0, 1, MOST_AMOUNT] {
            accepted(&[report(5, 1, 1), payment(5, 1, 1, amount)], years);
        }
        for amount in [1, MOST_AMOUNT] {
            let mut reported = report(5, 1, 1);
            reported.amount = amount;
            refused(&[reported], years, 16);
        }
    }
}

#[test]
fn claims() {
    // Reported twice, in whatever years.
    for again in [report(5, 1, 1), report(5, 1, 2), report(5, 2, 2)] {
        refused(&[report(5, 1, 1), again], 3, 17);
        refused(&[report(5, 1, 1), report(6, 1, 1), again], 3, 17);
    }
    accepted(&[report(5, 1, 1), report(6, 1, 1)], 3);
    // Paid unreported, of nothing too, and before its report.
    for amount in [0, 1, MOST_AMOUNT] {
        refused(&[payment(5, 1, 1, amount)], 3, 17);
        refused(&[report(4, 1, 1), payment(5, 1, 1, amount)], 3, 17);
        refused(&[payment(5, 1, 1, amount), report(5, 1, 1)], 3, 17);
    }
    // Under another accident year.
    for year in [1, 3] {
        refused(&[report(5, 2, 3), payment(5, year, 3, 1)], 3, 17);
        refused(&[report(5, 2, 3), payment(5, year, 3, 0)], 3, 17);
    }
    accepted(&[report(5, 2, 3), payment(5, 2, 3, 1)], 3);
}

#[test]
fn calendar_years_do_not_fall() {
    accepted(&[report(5, 1, 2), report(6, 1, 2), report(7, 1, 3)], 3);
    refused(&[report(5, 1, 2), report(6, 1, 1)], 3, 18);
    refused(&[report(5, 1, 2), payment(5, 1, 1, 1)], 3, 18);
    refused(
        &[report(5, 1, 3), payment(5, 1, 3, 1), payment(5, 1, 2, 1)],
        3,
        18,
    );
    assert_eq!(accepted(&[report(5, 1, 1), report(6, 1, 3)], 3).last, 3);
}

#[test]
fn cells_keep_to_their_range() {
    let full = [
        report(5, 1, 1),
        report(6, 1, 1),
        payment(5, 1, 1, MOST_AMOUNT - 1),
        payment(6, 1, 1, 1),
    ];
    let then = |next: Transaction| [&full[..], &[next]].concat();
    assert_eq!(accepted(&full, 2).paid[0], MOST_AMOUNT);
    assert_eq!(accepted(&then(payment(5, 1, 1, 0)), 2).paid[0], MOST_AMOUNT);
    refused(&then(payment(5, 1, 1, 1)), 2, 18);
    refused(&then(payment(5, 1, 1, MOST_AMOUNT)), 2, 18);
    // Other cells have room of their own.
    let tally = accepted(&then(payment(5, 1, 2, MOST_AMOUNT)), 2);
    assert_eq!(tally.paid[..2], [MOST_AMOUNT; 2]);
    refused(
        &[
            report(5, 1, 1),
            payment(5, 1, 1, MOST_AMOUNT),
            payment(5, 1, 1, MOST_AMOUNT),
        ],
        2,
        18,
    );
}

/// Within a transaction the lowest number is told; each fault alone has its own.
#[test]
fn rising_numbers_within_a_transaction() {
    let before = [
        report(5, 1, 2),
        payment(5, 1, 2, MOST_AMOUNT),
        report(6, 2, 2),
    ];
    let then = |next: Transaction| [&before[..], &[next]].concat();
    refused(&then(payment(5, 1, 2, 1)), 3, 18);
    refused(&then(payment(6, 1, 2, 1)), 3, 17);
    refused(&then(payment(6, 1, 2, MOST_AMOUNT + 1)), 3, 16);
    refused(&then(report(7, 1, 1)), 3, 18);
    refused(&then(report(5, 1, 1)), 3, 17);
    let mut bad = report(5, 1, 1);
    bad.zero = 1;
    refused(&then(bad), 3, 16);
    bad = report(7, 1, 1);
    bad.amount = 1;
    refused(&then(bad), 3, 16);
}

/// The first refused transaction is told, whatever the numbers of later ones.
#[test]
fn file_order() {
    let good = report(5, 1, 2);
    let bad = [
        (payment(5, 0, 2, 1), 16),
        (payment(6, 1, 2, 1), 17),
        (payment(5, 1, 1, 1), 18),
    ];
    for (first, refusal) in bad {
        for (second, _) in bad {
            refused(&[good, first, second], 3, refusal);
            refused(&[good, first, good, second], 3, refusal);
        }
        refused(&[good, payment(5, 1, 2, 1), first], 3, refusal);
    }
}

/// A journal's last transaction with what its cell had before it.
fn last_and_before(bytes: &[u8]) -> (Transaction, i64) {
    let list: Vec<Transaction> = bytes.chunks(16).map(Transaction::read).collect();
    let (last, before) = list.split_last().unwrap();
    let same = |each: &&Transaction| each.kind == PAID && each.cell() == last.cell();
    (
        *last,
        before.iter().filter(same).map(|each| each.amount).sum(),
    )
}

/// Each generated journal gets the answer that it was made for, and all that the generator can make
/// comes up.
#[test]
fn generated_journals() {
    const SEEDS: u64 = 6_000;
    let mut made: BTreeMap<Made, usize> = BTreeMap::new();
    let mut by_years = [0; 21];
    let mut refusals: BTreeMap<Refusal, usize> = BTreeMap::new();
    let (mut longest, mut too_long, mut empty) = (0, 0, 0);
    let (mut full_cells, mut nearly_full, mut one_above) = (0, 0, 0);
    for seed in 0..SEEDS {
        let case = journal_case(seed);
        let answer = replay(&case.journal, case.m);
        let wanted = case.made.refusal();
        assert_eq!(
            answer.as_ref().err().copied(),
            wanted,
            "seed {seed}, {:?}",
            case.made
        );
        too_long += usize::from(case.journal.len() == 16 * MOST + 16);
        match &answer {
            Ok(tally) => {
                by_years[case.m as usize] += 1;
                longest += usize::from(case.journal.len() == 16 * MOST);
                empty += usize::from(case.journal.is_empty());
                full_cells += usize::from(tally.paid.contains(&MOST_AMOUNT));
                nearly_full += usize::from(tally.paid.contains(&(MOST_AMOUNT - 1)));
            }
            Err(refusal) => *refusals.entry(*refusal).or_default() += 1,
        }
        if case.made == Made::Faulty(vec![Fault::Overfull], Spot::Last) {
            let (last, before) = last_and_before(&case.journal);
            one_above += usize::from(before + last.amount == MOST_AMOUNT + 1);
        }
        *made.entry(case.made).or_default() += 1;
    }
    println!("{made:?}\nrefused {refusals:?}\nby m {by_years:?}");
    println!("{longest} {too_long} {empty} {full_cells} {nearly_full} {one_above}");
    let times = |of: &dyn Fn(&Made) -> bool| -> usize {
        let counts = made.iter().filter(|(made, _)| of(made));
        counts.map(|(_, count)| count).sum()
    };
    for fault in Fault::ALL {
        for spot in [Spot::First, Spot::Middle, Spot::Last] {
            let count = times(&|made| *made == Made::Faulty(vec![fault], spot));
            let possible = spot != Spot::First || !fault.needs_others();
            assert_eq!(count >= 15, possible, "{fault:?} {spot:?} {count}");
        }
    }
    for pair in PAIRS {
        let count = times(&|made| matches!(made, Made::Faulty(faults, _) if *faults == pair));
        assert!(count >= 8, "{pair:?} {count}");
    }
    for (first, second) in [(16, 17), (16, 18), (17, 16), (17, 18), (18, 16), (18, 17)] {
        let count = times(&|made| match made {
            Made::TwoFaulty(one, other) => (one.refusal(), other.refusal()) == (first, second),
            _ => false,
        });
        assert!(count >= 8, "{first} {second} {count}");
    }
    assert!(times(&|made| *made == Made::Valid) > 2_000);
    assert!(refusals.keys().copied().eq([1, 16, 17, 18]), "{refusals:?}");
    assert!(refusals.values().all(|&count| count > 300), "{refusals:?}");
    assert!(
        by_years[2..].iter().all(|&count| count > 20),
        "{by_years:?}"
    );
    let rare = [longest, too_long, empty, full_cells, nearly_full, one_above];
    assert!(rare.iter().all(|&count| count > 15), "{rare:?}");
}

/// The tally of a valid journal, transaction by transaction: each one is in its cell and nowhere
/// else, and the triangles are those of a set that is written.
#[test]
fn tallies_grow_by_one_transaction() {
    let mut random = Random::new(4);
    for m in 2..=20 {
        let list = any_journal(&mut random, m, 120);
        let years = m as u64;
        let mut before = accepted(&[], years);
        for (at, next) in list.iter().enumerate() {
            let after = accepted(&list[..=at], years);
            let (i, j) = next.cell();
            let mut wanted = before;
            match next.kind {
                PAID => wanted.paid[place(i, j)] += next.amount,
                _ => {
                    wanted.counts[place(i, j)] += 1;
                    wanted.claims[next.claim as usize] = next.accident_year;
                }
            }
            wanted.last = next.calendar_year.into();
            assert_eq!(after, wanted, "m {m}, transaction {at}");
            before = after;
        }
        let mut file = vec![0; 16 * m * (m + 1)];
        let (counts, paid) = (&before.counts, &before.paid);
        write_set(years, 0, false, counts, paid, &[0; 400], &mut file).unwrap();
        let read = read_set(&file, years).unwrap();
        assert_eq!((&read.counts, &read.paid), (counts, paid));
    }
}
