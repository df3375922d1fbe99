//! Given delays, one by one: `check_delays` and `forecast_with_delays` against the calculation, on
//! every solution of a half, every number of delays and the ends of 64 bits in every place.

use pardesul::calls;
use reference::examples::{
    set_k, set_of_other_solution, set_of_three_solutions, sets_past_the_range,
};
use reference::forecast::entry_count;
use reference::generate::{file, next_values, set_of, solved_delays, Random, LIMIT};
use reference::given_delays::Estimated;
use reference::paid_reserve::{distances, paid_reserves, PaidReserve};
use reference::records::{cells, place};
use reference::{Big, Set};

/// What stands in lent memory before a call.
const BEFORE: i64 = i64::MIN + 9;

/// The line of cover of every set, and what stands in a lent one before a call.
const LINE: u64 = 5;
const NO_LINE: u64 = u64::MAX - 9;

/// The ends of 64 bits and of question 12's range, and numbers whose sums wrap.
const FAR: [i64; 11] = [
    i64::MIN,
    i64::MIN + 1,
    -(1 << 62),
    -LIMIT - 1,
    -LIMIT,
    0,
    LIMIT,
    LIMIT + 1,
    1 << 62,
    i64::MAX - 1,
    i64::MAX,
];

/// A set that can be estimated, and what demand 3 holds its forecasts to.
struct Asked {
    m: usize,
    file: Vec<u8>,
    estimated: Estimated,
    reserves: Vec<PaidReserve>,
}

impl Asked {
    fn of(set: Set) -> Asked {
        let set = set.on_line(LINE);
        let (m, file) = (set.m, file(&set));
        let Ok(estimated) = Estimated::of(set) else {
            panic!("a set that can be estimated");
        };
        let reserves = paid_reserves(&estimated.estimates);
        Asked {
            m,
            file,
            estimated,
            reserves,
        }
    }

    /// The delays solved here, in range or not.
    fn solved(&self) -> Vec<i64> {
        solved_delays(&self.file, self.m as u64).unwrap()
    }

    /// Whether these delays stand, as the calculation has it. Under DCL with estimated counts they
    /// are forecast with, and held to demand 3; a refusal leaves the memory.
    fn stand(&self, delays: &[i64]) -> bool {
        let (file, m) = (&self.file, self.m);
        let wanted = self.estimated.forecast(0, 1, delays);
        let beside = match &wanted {
            Ok(forecast) => (0, forecast.line),
            Err(refusal) => (*refusal, NO_LINE),
        };
        let mut line = NO_LINE;
        let refusal = calls::check_delays(file, m, delays, &mut line);
        assert_eq!((refusal, line), beside, "{delays:?}");
        let (mut out, mut leftovers) = (vec![BEFORE; entry_count(m) + 1], [BEFORE; 20]);
        line = NO_LINE;
        let refusal =
            calls::forecast_with_delays(file, m, 0, 1, delays, &mut line, &mut out, &mut leftovers);
        assert_eq!((refusal, line), beside, "{delays:?}");
        let Ok(wanted) = wanted else {
            assert_eq!(refusal, 20, "{delays:?}");
            assert!(out.iter().chain(&leftovers).all(|&word| word == BEFORE));
            return false;
        };
        assert_eq!(out.pop(), Some(BEFORE));
        assert_eq!((out, leftovers), (wanted.entries.clone(), wanted.leftovers));
        let years = distances(&self.reserves, &wanted.entries);
        assert!(years.iter().all(|year| year.within), "{delays:?}");
        true
    }
}

/// A set of m years with delays of both signs.
fn swinging(m: usize) -> Set {
    let mut set = Set::empty(m, false);
    for (i, j) in cells(m) {
        set.counts[place(i, j)] = if j == 0 { 1_000 } else { 300 / j as i64 };
        set.paid[place(i, j)] = 1_000_000 / (j as i64 * j as i64 + 1);
    }
    set
}

/// Of all delays near the three solutions of a set, only these stand.
#[test]
fn three_solutions() {
    let asked = Asked::of(set_of_three_solutions());
    let mut standing = Vec::new();
    for first in 2_499_990..2_500_015 {
        for second in 2_493_749_980..2_493_750_010 {
            if asked.stand(&[first, second]) {
                standing.push([first, second]);
            }
        }
    }
    let wanted = [
        [2_500_002, 2_493_749_994],
        [2_500_002, 2_493_749_995],
        [2_500_003, 2_493_749_993],
    ];
    assert_eq!(standing, wanted);
}

/// Delays stand where those solved here are out of range, and are forecast with.
#[test]
fn only_another_solution() {
    let (set, given) = set_of_other_solution();
    let (file, mut line, mut p) = (file(&set), NO_LINE, [BEFORE; 20]);
    assert_eq!(calls::delays(&file, 3, &mut line, &mut p), 12);
    assert_eq!((line, p), (NO_LINE, [BEFORE; 20]));
    let asked = Asked::of(set);
    assert!(asked.stand(&given));
    let solved = asked.solved();
    assert_eq!(solved[..2], [given[0] + 1, -LIMIT - 3]);
    assert!(!asked.stand(&solved));
    for l in 0..3 {
        for off in [-1, 1] {
            let mut other = given;
            other[l] += off;
            assert!(!asked.stand(&other), "{other:?}");
        }
    }
}

/// Delays that solve the system and are one past the range do not stand.
#[test]
fn one_past_the_range() {
    for (set, delays) in sets_past_the_range() {
        assert!(!Asked::of(set).stand(&delays), "{delays:?}");
    }
}

/// Every number of delays: those solved here, cut or with more behind them.
#[test]
fn every_number_of_delays() {
    let sets = [2, 3, 5, 10, 19, 20].map(swinging);
    for set in sets.into_iter().chain([set_k(), set_of_three_solutions()]) {
        let asked = Asked::of(set);
        let solved = asked.solved();
        for behind in [0, 1, LIMIT, i64::MIN, i64::MAX] {
            for number in (0..=64).chain([255, 256, 257, 4_096, 65_536]) {
                let mut delays = solved.clone();
                delays.resize(number, behind);
                assert_eq!(asked.stand(&delays), number == asked.m, "{number}");
            }
        }
    }
}

/// Far numbers in every place, in every two that adjoin, and in all.
#[test]
fn far_numbers() {
    let mut refused = 0;
    for m in [2, 3, 5, 20] {
        let asked = Asked::of(swinging(m));
        let solved = asked.solved();
        assert!(asked.stand(&solved));
        for value in FAR {
            assert!(!asked.stand(&vec![value; m]));
            for at in 0..m {
                let mut delays = solved.clone();
                delays[at] = value;
                assert!(!asked.stand(&delays), "{value} at {at}");
                for other in FAR {
                    delays[(at + 1) % m] = other;
                    assert!(!asked.stand(&delays), "{value} and {other} from {at}");
                    refused += 1;
                }
            }
        }
    }
    assert_eq!(refused, 30 * 121);
}

/// The solutions of a set that go on from these delays, so many at most.
fn solutions(estimated: &Estimated, p: Vec<Big>, most: usize) -> Vec<Vec<Big>> {
    if p.len() == estimated.set.m {
        return vec![p];
    }
    let mut found = Vec::new();
    for value in next_values(&estimated.estimates, &p) {
        if found.len() < most {
            let with = [&p[..], &[value]].concat();
            found.extend(solutions(estimated, with, most - found.len()));
        }
    }
    found
}

/// Every solution of the sets made for halves, and what is one off in any place: it stands where
/// each delay is in range, and all kinds of refusal are met.
#[test]
fn every_solution_of_sets_made_for_halves() {
    let (mut sets, mut standing, mut out_of_range, mut off) = (0, 0, 0, 0);
    for seed in (0..8_000).step_by(8) {
        let set = set_of(seed, &mut Random::new(seed));
        let Ok(estimated) = Estimated::of(set) else {
            continue;
        };
        let found = solutions(&estimated, Vec::new(), 64);
        if found.len() < 2 {
            continue;
        }
        sets += 1;
        let asked = Asked::of(estimated.set);
        for p in &found {
            let Some(delays) = p.iter().map(Big::to_i64).collect::<Option<Vec<i64>>>() else {
                continue;
            };
            let in_range = delays.iter().all(|delay| delay.abs() <= LIMIT);
            assert_eq!(asked.stand(&delays), in_range, "seed {seed}, {delays:?}");
            standing += u64::from(in_range);
            out_of_range += u64::from(!in_range);
            for l in 0..asked.m {
                for one in [-1, 1] {
                    let mut other = delays.clone();
                    other[l] += one;
                    off += u64::from(!asked.stand(&other));
                }
            }
        }
    }
    println!("{sets} sets, {standing} solutions, {out_of_range} out of range, {off} off");
    assert!(sets > 50 && standing > 150, "{sets} {standing}");
    assert!(out_of_range > 10 && off > 1_000, "{out_of_range} {off}");
}
