//! The line of cover: it stands beside each answer, and no other number hangs on it.

use reference::back_test::cut_set;
use reference::examples::{set, set_k, set_k_without_incurred};
use reference::forecast::entry_count;
use reference::generate::{case, file, put_on_line, solved_delays, windows, Case};
use reference::page::page_length;
use reference::*;

/// The calls that hand a line back.
const CALLS: [&str; 9] = [
    "read",
    "shares",
    "delays",
    "claim costs",
    "check delays",
    "forecast",
    "forecast with delays",
    "back-test",
    "cash",
];

/// The line beside each accepted answer, in the order of [`CALLS`].
type Lines = [Option<u64>; CALLS.len()];

/// Each call's answer without its line, and the texts of the page and of `closing`.
type Answers = (
    Result<Set, Refusal>,
    Result<Shares, Refusal>,
    Result<Delays, Refusal>,
    Result<ClaimCosts, Refusal>,
    Result<(), Refusal>,
    [Result<Forecast, Refusal>; 2],
    Result<BackTest, Refusal>,
    Result<i64, Refusal>,
    Result<String, Refusal>,
    Vec<u8>,
);

/// What every call answers to a file in place of the case's.
fn ask(seed: u64, case: &Case, file: &[u8]) -> (Lines, Answers) {
    let (m, method, basis, room) = (case.m, case.method, case.basis, case.out_len);
    let given = solved_delays(file, m).unwrap_or_default();
    let (_, window) = windows(seed, m)[0];
    let read = read_set(file, m);
    let shares = shares(file, m);
    let delays = delays(file, m);
    let costs = claim_costs(file, m);
    let checked = check_delays(file, m, &given);
    let forecast = forecast(file, m, method, basis, room);
    let with_delays = forecast_with_delays(file, m, method, basis, &given, room);
    let test = back_test(file, m, case.cut, method, basis);
    let cash = cash_in_window(file, m, method, basis, &window);
    let lines = [
        read.as_ref().ok().map(|found| found.line),
        shares.as_ref().ok().map(|found| found.line),
        delays.as_ref().ok().map(|found| found.line),
        costs.as_ref().ok().map(|found| found.line),
        checked.ok(),
        forecast.as_ref().ok().map(|found| found.line),
        with_delays.as_ref().ok().map(|found| found.line),
        test.as_ref().ok().map(|found| found.line),
        cash.ok().map(|found| found.line),
    ];
    let first_line = format!("{m} {method} {basis}\n");
    let answers = (
        read.map(|found| found.on_line(0)),
        shares.map(|found| Shares { line: 0, ..found }),
        delays.map(|found| Delays { line: 0, ..found }),
        costs.map(|found| ClaimCosts { line: 0, ..found }),
        checked.map(|_| ()),
        [forecast, with_delays].map(|found| found.map(|found| Forecast { line: 0, ..found })),
        test.map(|found| BackTest { line: 0, ..found }),
        cash.map(|found| found.amount),
        closing_page(file, m, method, basis, usize::MAX),
        closing(&[first_line.as_bytes(), file].concat()),
    );
    (lines, answers)
}

/// A case of which nothing but its file counts: method 0, basis 1, all the room, and cut 1.
fn plain_case(set: &Set) -> Case {
    Case {
        m: set.m as u64,
        file: file(set),
        method: 0,
        basis: 1,
        out_len: entry_count(set.m),
        cut: 1,
    }
}

/// Every call hands the line of a set of three years back.
#[test]
fn line_beside_each_answer() {
    let three = set(
        &[&[80, 20, 0], &[90, 25], &[100]],
        &[&[600, 400, 50], &[660, 430], &[700]],
        Some(&[&[900, 100, 0], &[1080, 20], &[990]]),
    );
    let case = plain_case(&three);
    let (_, answers) = ask(1, &case, &case.file);
    for line in 0..=5 {
        let (lines, same) = ask(1, &case, &file(&three.on_line(line)));
        assert_eq!(lines, [Some(line); CALLS.len()]);
        assert_eq!(same, answers);
        assert_eq!(cut_set(&three.on_line(line), 2).line, line);
    }
}

/// The page and the text of `closing` have no place for a line, and accept each.
#[test]
fn texts_of_k() {
    let k = set_k_without_incurred();
    let text = |line| closing(&[b"2 0 1\n", &file(&k.on_line(line))[..]].concat());
    let page = |line| closing_page(&file(&k.on_line(line)), 2, 0, 1, page_length(2));
    for line in 0..=5 {
        assert_eq!(text(line), b"1 337 165 502\n2 0 69 69\nT 337 234 571\n");
        assert_eq!(page(line), page(0));
    }
    assert!(page(0).is_ok());
}

/// The line is part of the set.
#[test]
fn sets_of_two_lines_differ() {
    assert_eq!(set_k(), set_k().on_line(0));
    for line in 1..=5 {
        assert_ne!(set_k(), set_k().on_line(line));
        assert_ne!(file(&set_k()), file(&set_k().on_line(line)));
    }
}

/// Of generated files: one and the same on another line get the same answers, but for the line.
#[test]
fn answers_are_those_of_another_line() {
    let mut accepted = [[0; 6]; CALLS.len()];
    let mut refused = 0;
    for seed in 0..600 {
        let case = case(seed);
        let Ok(set) = read_set(&case.file, case.m) else {
            continue;
        };
        let other = (set.line + 1 + seed % 5) % 6;
        let mut moved = case.file.clone();
        put_on_line(&mut moved, other as u8);
        let (lines, answers) = ask(seed, &case, &case.file);
        let (moved_lines, moved_answers) = ask(seed, &case, &moved);
        assert_eq!(answers, moved_answers, "seed {seed}");
        for (call, (line, moved)) in lines.into_iter().zip(moved_lines).enumerate() {
            let text = format!("seed {seed}, {}", CALLS[call]);
            assert!(line.is_none_or(|line| line == set.line), "{text}");
            assert_eq!(moved, line.map(|_| other), "{text}");
            match line {
                Some(line) => accepted[call][line as usize] += 1,
                None => refused += 1,
            }
        }
    }
    println!("{accepted:?}, refused {refused}");
    for (call, lines) in CALLS.iter().zip(accepted) {
        assert!(lines.iter().all(|&times| times > 20), "{call}: {lines:?}");
    }
    assert!(refused > 500, "{refused}");
}
