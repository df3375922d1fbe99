//! The measured calls: each proved one with those of both peers, on the same file or journal.

use crate::plain::Set;
use crate::{expert, plain};
use pardesul::{calls, JournalTally};
use reference::generate::{any_journal, any_set, shuffled_file, Random};
use reference::journal::{journal, MOST, REPORTED};
use std::hint::black_box;

const SIZES: [usize; 4] = [2, 5, 10, 20];

/// The sides of a case: the proved call, the plain one and the expert's.
pub const SIDES: usize = 3;

/// A call on the file of a set of m years, or on a journal of as many, by each side.
pub struct Case {
    pub call: String,
    pub m: usize,
    pub sides: [Box<dyn FnMut()>; SIDES],
}

/// All of them, in the order of the table. Their files and journals stay in memory to the program's
/// end.
pub fn cases() -> Vec<Case> {
    let mut cases = Vec::new();
    for m in SIZES {
        let file = accepted_file(m).leak();
        cases.extend([read(file, m), write(file, m)]);
        cases.extend([shares(file, m), delays(file, m), check_delays(file, m)]);
        for method in 0..3 {
            cases.extend([0, 1].map(|basis| forecast(file, m, method, basis)));
        }
        cases.push(forecast_with_delays(file, m));
        cases.extend([claim_costs(file, m), respond(file, m)]);
        cases.extend([closing_page(file, m), cash_in_window(file, m), replay(m)]);
        if m > 2 {
            cases.extend([1, m / 2].map(|cut| back_test(file, m, cut)));
        }
    }
    cases
}

/// The file of a set of this size with incurred, its records in any order, that every method and
/// both back-tests accept.
fn accepted_file(m: usize) -> Vec<u8> {
    let mut random = Random::new(m as u64);
    loop {
        let set = any_set(&mut random);
        if set.m != m || !set.has_incurred {
            continue;
        }
        let file = shuffled_file(&mut random, &set);
        let tested = |cut| plain::back_test(&file, m, cut, 0, 1).is_ok();
        let forecast = |method| plain::forecast(&file, m, method, 0, &mut [0; 1560]).is_ok();
        if (m == 2 || [1, m as u64 / 2].into_iter().all(tested)) && (0..3).all(forecast) {
            return file;
        }
    }
}

/// A journal of all m calendar years and as many transactions as there may be, a quarter to a half
/// of them reports.
fn longest_journal(m: usize) -> Vec<u8> {
    let mut random = Random::new(m as u64);
    loop {
        let list = any_journal(&mut random, m, MOST);
        let reports = list.iter().filter(|each| each.kind == REPORTED).count();
        let years = [0, MOST - 1].map(|at| usize::from(list[at].calendar_year));
        if (MOST / 4..MOST / 2).contains(&reports) && years == [1, m] {
            return journal(&list);
        }
    }
}

fn case(
    call: impl Into<String>,
    m: usize,
    proved: impl FnMut() + 'static,
    plain: impl FnMut() + 'static,
    expert: impl FnMut() + 'static,
) -> Case {
    Case {
        call: call.into(),
        m,
        sides: [Box::new(proved), Box::new(plain), Box::new(expert)],
    }
}

fn read(file: &'static [u8], m: usize) -> Case {
    let (mut line, mut has_incurred) = (0, false);
    let [mut counts, mut paid, mut incurred] = [[0; 400]; 3];
    let mut set = Set::zero();
    case(
        "read",
        m,
        move || {
            black_box(calls::read_set(
                black_box(file),
                m,
                &mut line,
                &mut has_incurred,
                &mut counts,
                &mut paid,
                &mut incurred,
            ));
        },
        move || {
            black_box(plain::read_set(black_box(file), m)).ok();
        },
        move || {
            black_box(expert::read_set(black_box(file), m, &mut set)).ok();
        },
    )
}

fn write(file: &'static [u8], m: usize) -> Case {
    let set: &Set = Box::leak(Box::new(
        plain::read_set(file, m).expect("an accepted file"),
    ));
    let [mut out, mut plain_out, mut expert_out] = [[0; 10_080]; 3];
    case(
        "write",
        m,
        move || {
            let Set {
                line,
                has_incurred,
                triangles: [counts, paid, incurred],
                ..
            } = black_box(set);
            black_box(calls::write_set(
                m,
                *line,
                *has_incurred,
                counts,
                paid,
                incurred,
                &mut out,
            ));
        },
        move || {
            black_box(plain::write_set(black_box(set), &mut plain_out)).ok();
        },
        move || {
            black_box(expert::write_set(black_box(set), &mut expert_out)).ok();
        },
    )
}

fn shares(file: &'static [u8], m: usize) -> Case {
    let (mut line, [mut b, mut n, mut q, mut g, mut u]) = (0, [[0; 20]; 5]);
    case(
        "shares",
        m,
        move || {
            let file = black_box(file);
            black_box(calls::shares(
                file, m, &mut line, &mut b, &mut n, &mut q, &mut g, &mut u,
            ));
        },
        move || {
            black_box(plain::shares(black_box(file), m)).ok();
        },
        move || {
            black_box(expert::shares(black_box(file), m)).ok();
        },
    )
}

fn delays(file: &'static [u8], m: usize) -> Case {
    let (mut line, mut p) = (0, [0; 20]);
    case(
        "delays",
        m,
        move || {
            black_box(calls::delays(black_box(file), m, &mut line, &mut p));
        },
        move || {
            black_box(plain::delays(black_box(file), m)).ok();
        },
        move || {
            black_box(expert::delays(black_box(file), m)).ok();
        },
    )
}

/// The delays of an accepted file, which stay in memory as it does.
fn solved(file: &[u8], m: usize) -> &'static [i64] {
    let found = plain::delays(file, m).expect("an accepted file");
    found.p[..m].to_vec().leak()
}

fn check_delays(file: &'static [u8], m: usize) -> Case {
    let (mut line, delays) = (0, solved(file, m));
    case(
        "check delays",
        m,
        move || {
            let (file, delays) = black_box((file, delays));
            black_box(calls::check_delays(file, m, delays, &mut line));
        },
        move || {
            let (file, delays) = black_box((file, delays));
            black_box(plain::check_delays(file, m, delays)).ok();
        },
        move || {
            let (file, delays) = black_box((file, delays));
            black_box(expert::check_delays(file, m, delays)).ok();
        },
    )
}

fn forecast(file: &'static [u8], m: usize, method: u64, basis: u64) -> Case {
    let [mut out, mut plain_out, mut expert_out] = [[0; 1_560]; 3];
    let (mut line, mut leftovers) = (0, [0; 20]);
    case(
        format!("forecast {method} {basis}"),
        m,
        move || {
            let file = black_box(file);
            black_box(calls::forecast(
                file,
                m,
                method,
                basis,
                &mut line,
                &mut out,
                &mut leftovers,
            ));
        },
        move || {
            let file = black_box(file);
            black_box(plain::forecast(file, m, method, basis, &mut plain_out)).ok();
        },
        move || {
            let file = black_box(file);
            black_box(expert::forecast(file, m, method, basis, &mut expert_out)).ok();
        },
    )
}

fn forecast_with_delays(file: &'static [u8], m: usize) -> Case {
    let [mut out, mut plain_out, mut expert_out] = [[0; 1_560]; 3];
    let (mut line, mut leftovers, delays) = (0, [0; 20], solved(file, m));
    case(
        "forecast with delays 0 1",
        m,
        move || {
            let (file, delays) = black_box((file, delays));
            black_box(calls::forecast_with_delays(
                file,
                m,
                0,
                1,
                delays,
                &mut line,
                &mut out,
                &mut leftovers,
            ));
        },
        move || {
            let (file, delays) = black_box((file, delays));
            let found = plain::forecast_with_delays(file, m, 0, 1, delays, &mut plain_out);
            black_box(found).ok();
        },
        move || {
            let (file, delays) = black_box((file, delays));
            let found = expert::forecast_with_delays(file, m, 0, 1, delays, &mut expert_out);
            black_box(found).ok();
        },
    )
}

fn claim_costs(file: &'static [u8], m: usize) -> Case {
    let (mut line, mut mu) = (0, 0.0);
    let (mut kinds, [mut factors, mut ratios]) = ([0; 20], [[0.0; 20]; 2]);
    case(
        "claim costs",
        m,
        move || {
            let file = black_box(file);
            black_box(calls::claim_costs(
                file,
                m,
                &mut line,
                &mut mu,
                &mut factors,
                &mut kinds,
                &mut ratios,
            ));
        },
        move || {
            black_box(plain::claim_costs(black_box(file), m)).ok();
        },
        move || {
            black_box(expert::claim_costs(black_box(file), m)).ok();
        },
    )
}

fn respond(file: &[u8], m: usize) -> Case {
    let input: &[u8] = [format!("{m} 0 1\n").as_bytes(), file].concat().leak();
    let [mut out, mut plain_out, mut expert_out] = [[0; 2_573]; 3];
    case(
        "respond 0 1",
        m,
        move || {
            black_box(calls::respond(black_box(input), &mut out));
        },
        move || {
            black_box(plain::respond(black_box(input), &mut plain_out));
        },
        move || {
            black_box(expert::respond(black_box(input), &mut expert_out));
        },
    )
}

fn closing_page(file: &'static [u8], m: usize) -> Case {
    let [mut page, mut plain_page, mut expert_page] = [[0; 2_720]; 3];
    case(
        "closing page 0 1",
        m,
        move || {
            black_box(calls::closing_page(black_box(file), m, 0, 1, &mut page));
        },
        move || {
            let file = black_box(file);
            black_box(plain::closing_page(file, m, 0, 1, &mut plain_page)).ok();
        },
        move || {
            let file = black_box(file);
            black_box(expert::closing_page(file, m, 0, 1, &mut expert_page)).ok();
        },
    )
}

fn cash_in_window(file: &'static [u8], m: usize) -> Case {
    const DATES: [plain::Date; 3] = [[2023, 12, 31], [2024, 10, 1], [2025, 7, 1]];
    let (mut line, mut amount) = (0, 0);
    case(
        "cash in window 0 1",
        m,
        move || {
            let (file, dates) = black_box((file, &DATES));
            black_box(calls::cash_in_window(
                file,
                m,
                0,
                1,
                dates,
                &mut line,
                &mut amount,
            ));
        },
        move || {
            let (file, dates) = black_box((file, &DATES));
            black_box(plain::cash_in_window(file, m, 0, 1, dates)).ok();
        },
        move || {
            let (file, dates) = black_box((file, &DATES));
            black_box(expert::cash_in_window(file, m, 0, 1, dates)).ok();
        },
    )
}

fn replay(m: usize) -> Case {
    let journal: &[u8] = longest_journal(m).leak();
    let (mut tally, mut expert_tally) = (JournalTally::zero(), plain::JournalTally::zero());
    case(
        "replay",
        m,
        move || {
            black_box(calls::replay(black_box(journal), m, &mut tally));
        },
        move || {
            black_box(plain::replay(black_box(journal), m)).ok();
        },
        move || {
            black_box(expert::replay(black_box(journal), m, &mut expert_tally)).ok();
        },
    )
}

fn back_test(file: &'static [u8], m: usize, cut: usize) -> Case {
    let (mut line, mut sums, c) = (0, [0; 4], cut as u64);
    case(
        format!("back-test 0 1, c = {cut}"),
        m,
        move || {
            let file = black_box(file);
            black_box(calls::back_test(file, m, 0, 1, cut, &mut line, &mut sums));
        },
        move || {
            black_box(plain::back_test(black_box(file), m, c, 0, 1)).ok();
        },
        move || {
            black_box(expert::back_test(black_box(file), m, c, 0, 1)).ok();
        },
    )
}
