//! The line of cover: every byte in its place and in the spare ones behind it, and one and the same
//! file on every line.

use compare::every_call;
use pardesul::calls;
use reference::examples::{set, set_k, set_k_without_incurred};
use reference::forecast::entry_count;
use reference::generate::{any_set, case, file, put_on_line, windows, Case, Random};
use reference::page::page_length;
use reference::{read_set, Set};
use std::collections::BTreeMap;

/// What stands in lent memory before a call.
const BEFORE: i64 = i64::MIN + 9;
const NO_LINE: u64 = u64::MAX - 9;

/// The bytes of the longest text of `closing`.
const LONGEST: usize = 2_573;

/// Sets of two and three years, with and without incurred.
fn small_sets() -> Vec<Set> {
    let (counts, paid): ([&[i64]; 3], [&[i64]; 3]) = (
        [&[80, 20, 0], &[90, 25], &[100]],
        [&[600, 400, 50], &[660, 430], &[700]],
    );
    let incurred: [&[i64]; 3] = [&[900, 100, 0], &[1080, 20], &[990]];
    vec![
        set_k(),
        set_k_without_incurred(),
        set(&counts, &paid, None),
        set(&counts, &paid, Some(&incurred)),
    ]
}

/// Sets of more years, with and without incurred, that the forecast accepts.
fn larger_sets() -> Vec<Set> {
    let mut random = Random::new(7);
    let mut any = |m: usize, has_incurred: bool| loop {
        let set = any_set(&mut random);
        let is_one = (set.m, set.has_incurred) == (m, has_incurred);
        if is_one && reference::forecast(&file(&set), m as u64, 0, 1, entry_count(m)).is_ok() {
            return set;
        }
    };
    let sizes = [4, 7, 12, 20];
    sizes
        .into_iter()
        .flat_map(|m| [any(m, false), any(m, true)])
        .collect()
}

/// A case of a file: method 0, basis 1, some room more than is needed, and cut 1.
fn plain_case(m: usize, file: Vec<u8>) -> Case {
    Case {
        m: m as u64,
        file,
        method: 0,
        basis: 1,
        out_len: entry_count(m) + 1,
        cut: 1,
    }
}

/// Every call on a case is as calculated; says the file's line, or what it is refused with.
fn compared(seed: u64, case: &Case) -> Result<u64, u64> {
    if let Err(difference) = every_call(seed, case) {
        panic!("{difference}");
    }
    read_set(&case.file, case.m).map(|set| set.line)
}

/// All records with the same byte in the line's place: 0 to 5 are lines, others are refused 3.
#[test]
fn every_byte_in_all_records() {
    for set in small_sets().into_iter().chain(larger_sets()) {
        let mut case = plain_case(set.m, file(&set));
        for byte in 0..=255 {
            put_on_line(&mut case.file, byte);
            let wanted = match byte {
                0..=5 => Ok(byte.into()),
                _ => Err(3),
            };
            assert_eq!(compared(byte.into(), &case), wanted, "m {}", set.m);
        }
    }
}

/// Bytes 3 to 7 of one of these records changed, in the file of a set on any line: the file is
/// refused 3.
fn change_records(set: &Set, records: &[usize]) {
    let mut case = plain_case(set.m, file(set));
    for line in 0..=5 {
        put_on_line(&mut case.file, line);
        for &record in records {
            for byte in 3..8 {
                let at = 16 * record + byte;
                let before = case.file[at];
                let others = [0, 1, 2, 3, 4, 5, 6, 128, 255];
                for other in others.into_iter().filter(|&other| other != before) {
                    case.file[at] = other;
                    let text = format!("m {}, line {line}, {other} at {at}", set.m);
                    assert_eq!(compared(at as u64, &case), Err(3), "{text}");
                }
                case.file[at] = before;
            }
        }
        assert_eq!(compared(line.into(), &case), Ok(line.into()));
    }
}

#[test]
fn bytes_of_every_record() {
    for set in small_sets() {
        let records = file(&set).len() / 16;
        change_records(&set, &(0..records).collect::<Vec<_>>());
    }
}

#[test]
fn bytes_of_some_records() {
    for set in larger_sets() {
        let last = file(&set).len() / 16 - 1;
        change_records(&set, &[0, last / 2, last]);
    }
}

/// K written with this m, line and first payment, into so many bytes: the first of questions 1, 3, 5
/// and 7 that gets a no counts, and a refusal leaves the output.
fn write_k(m: usize, line: u64, payment: i64, room: usize) {
    let mut set = set_k();
    let length = file(&set).len();
    let (refusal, written) = match (m, line, payment) {
        (21, ..) => (1, vec![9; room]),
        (_, 6.., _) => (3, vec![9; room]),
        (.., -1) => (5, vec![9; room]),
        _ if room < length => (7, vec![9; room]),
        _ => (
            0,
            [file(&set.on_line(line)), vec![9; room - length]].concat(),
        ),
    };
    set.paid[0] = payment;
    let (counts, paid, incurred, mut out) = (&set.counts, &set.paid, &set.incurred, vec![9; room]);
    let found = calls::write_set(m, line, true, counts, paid, incurred, &mut out);
    let text = format!("m {m}, line {line}, payment {payment}, {room} bytes");
    assert_eq!((found, out), (refusal, written), "{text}");
}

#[test]
fn questions_of_the_writer() {
    let far = [256, 261, 1 << 16, (1 << 32) + 5, 1 << 63, u64::MAX];
    for line in (0..=255).chain(far) {
        for m in [2, 21] {
            for payment in [600, -1] {
                for room in [0, 143, 144, 145] {
                    write_k(m, line, payment, room);
                }
            }
        }
    }
}

/// What a call leaves: its refusal; the line, where it hands one back; and all other memory that it
/// is lent, word by word, with the length of a text before it.
struct Left {
    call: &'static str,
    refusal: u64,
    line: Option<u64>,
    memory: Vec<i64>,
}

/// What every raw call leaves that is put to a file in place of the case's.
fn ask(seed: u64, case: &Case, file: &[u8]) -> Vec<Left> {
    let (m, method, basis) = (case.m as usize, case.method, case.basis);
    let mut asked = Vec::new();
    let mut left = |call, refusal, line, lists: &[&[i64]]| {
        let memory = lists.concat();
        asked.push(Left {
            call,
            refusal,
            line,
            memory,
        });
    };

    let (mut line, mut has_incurred) = (NO_LINE, true);
    let [mut counts, mut paid, mut incurred] = [[BEFORE; 400]; 3];
    let refusal = calls::read_set(
        file,
        m,
        &mut line,
        &mut has_incurred,
        &mut counts,
        &mut paid,
        &mut incurred,
    );
    let flag = [i64::from(has_incurred)];
    left(
        "read",
        refusal,
        Some(line),
        &[&flag, &counts, &paid, &incurred],
    );

    let mut out = vec![9; file.len() + 1];
    let refusal = calls::write_set(m, line, has_incurred, &counts, &paid, &incurred, &mut out);
    let first = out[3];
    assert!(out.chunks_exact(16).all(|record| record[3] == first));
    put_on_line(&mut out, 0);
    left("write", refusal, Some(first.into()), &[&bytes(&out)]);

    let (mut line, [mut b, mut n, mut q, mut g, mut u]) = (NO_LINE, [[BEFORE; 20]; 5]);
    let refusal = calls::shares(file, m, &mut line, &mut b, &mut n, &mut q, &mut g, &mut u);
    left("shares", refusal, Some(line), &[&b, &n, &q, &g, &u]);

    let (mut line, mut p) = (NO_LINE, [BEFORE; 20]);
    let refusal = calls::delays(file, m, &mut line, &mut p);
    left("delays", refusal, Some(line), &[&p]);
    let given = &p[..m];

    let mut line = NO_LINE;
    let refusal = calls::check_delays(file, m, given, &mut line);
    left("check delays", refusal, Some(line), &[]);

    let (mut line, mut mu) = (NO_LINE, 9.0);
    let (mut factors, mut kinds, mut ratios) = ([9.0; 20], [9; 20], [9.0; 20]);
    let refusal = calls::claim_costs(
        file,
        m,
        &mut line,
        &mut mu,
        &mut factors,
        &mut kinds,
        &mut ratios,
    );
    let floats = [&[mu][..], &factors, &ratios].concat();
    let floats: Vec<i64> = floats.iter().map(|float| float.to_bits() as i64).collect();
    left(
        "claim costs",
        refusal,
        Some(line),
        &[&floats, &bytes(&kinds)],
    );

    let (mut line, mut out, mut leftovers) = (NO_LINE, vec![BEFORE; case.out_len], [BEFORE; 20]);
    let refusal = calls::forecast(file, m, method, basis, &mut line, &mut out, &mut leftovers);
    left("forecast", refusal, Some(line), &[&out, &leftovers]);

    let (mut line, mut out, mut leftovers) = (NO_LINE, vec![BEFORE; case.out_len], [BEFORE; 20]);
    let refusal = calls::forecast_with_delays(
        file,
        m,
        method,
        basis,
        given,
        &mut line,
        &mut out,
        &mut leftovers,
    );
    left(
        "forecast with delays",
        refusal,
        Some(line),
        &[&out, &leftovers],
    );

    let (mut line, mut sums, cut) = (NO_LINE, [9; 4], case.cut as usize);
    let refusal = calls::back_test(file, m, method, basis, cut, &mut line, &mut sums);
    let sums = sums.map(|sum| sum as i64);
    left("back-test", refusal, Some(line), &[&sums]);

    for (_, window) in windows(seed, case.m) {
        let (mut line, mut amount) = (NO_LINE, BEFORE);
        let dates = window.dates().map(|date| [date.year, date.month, date.day]);
        let refusal = calls::cash_in_window(file, m, method, basis, &dates, &mut line, &mut amount);
        left("cash", refusal, Some(line), &[&[amount]]);
    }

    let mut page = vec![9; page_length(m) + 1];
    let refusal = calls::closing_page(file, m, method, basis, &mut page);
    left("page", refusal, None, &[&bytes(&page)]);

    let input = [format!("{m} {method} {basis}\n").as_bytes(), file].concat();
    let mut text = vec![9; LONGEST];
    let length = calls::respond(&input, &mut text);
    left("text", 0, None, &[&[length as i64], &bytes(&text)]);
    asked
}

fn bytes(list: &[u8]) -> Vec<i64> {
    list.iter().copied().map(i64::from).collect()
}

/// Generated files that are read, on their own line and on each other one: every call leaves the
/// same, but for the line where it hands one back.
#[test]
fn answers_are_those_of_another_line() {
    let mut accepted: BTreeMap<&str, [u64; 2]> = BTreeMap::new();
    for seed in 0..1_000 {
        let case = case(seed);
        let Ok(set) = read_set(&case.file, case.m) else {
            continue;
        };
        let own = ask(seed, &case, &case.file);
        for line in 0..=5 {
            let mut moved = case.file.clone();
            put_on_line(&mut moved, line as u8);
            assert_eq!(moved == case.file, line == set.line);
            for (own, moved) in own.iter().zip(ask(seed, &case, &moved)) {
                let text = format!("seed {seed}, line {line}, {}", own.call);
                assert_eq!(moved.refusal, own.refusal, "{text}");
                assert_eq!(moved.memory, own.memory, "{text}");
                let is_accepted = own.refusal == 0;
                let beside = |line| if is_accepted { line } else { NO_LINE };
                assert_eq!(moved.line, own.line.map(|_| beside(line)), "{text}");
                accepted.entry(own.call).or_default()[usize::from(is_accepted)] += 1;
            }
        }
    }
    println!("{accepted:?}");
    assert_eq!(accepted.len(), 12);
    for (call, [refused, accepted]) in accepted {
        match call {
            "read" | "write" | "text" => assert!(refused == 0 && accepted > 4_000, "{call}"),
            _ => assert!(refused > 200 && accepted > 2_000, "{call}"),
        }
    }
}
