//! Seeded sets, files, journals, windows, given delays and calls for tests and comparisons: tidy
//! ones, ones at every limit, and ones that each question refuses.

mod damage;
mod edges;
mod faults;
mod given_delays;
mod halves;
mod incurred;
mod journals;
mod patterns;
mod random;
mod sets;
mod windows;

pub use damage::put_on_line;
pub use faults::{Fault, PAIRS};
pub use given_delays::{given_delays, next_values, solved_delays, Given, LIMIT};
pub use journals::{any_journal, journal_case, JournalCase, Made, Spot};
pub use random::Random;
pub use sets::{any_set, set_of, shape_of, Shape};
pub use windows::{windows, Span};

use crate::calendar::Tally;
use crate::cash::ForecastYears;
use crate::forecast::{entry_count, forecast};
use crate::halves::{add, during, Halves};
use crate::records::{cells, file_length, place, write_set, Refusal, Set, Values};
use sets::any_line;
use std::collections::BTreeMap;
use std::ops::Range;

/// The arguments of every call that takes a file.
#[derive(Clone, Debug)]
pub struct Case {
    pub m: u64,
    pub file: Vec<u8>,
    pub method: u64,
    pub basis: u64,
    pub out_len: usize,
    pub cut: u64,
}

/// The case of a seed.
pub fn case(seed: u64) -> Case {
    let mut random = Random::new(seed);
    let mut set = set_of(seed, &mut random);
    let method = any_method(&mut random, &set);
    match random.below(9) {
        0 => damage::unfit_shares(&mut random, &mut set),
        1 if set.has_incurred => damage::unfit_incurred(&mut random, &mut set),
        2 if set.has_incurred => damage::unfit_bases(&mut random, &mut set),
        3 | 4 => edges::to_the_edge(&mut random, &mut set, method),
        _ => {}
    }
    let mut file = shuffled_file(&mut random, &set);
    // Lines have a source of their own, so that nothing else hangs on them. Now and then the file
    // is on another line than the set was.
    let mut lines = random.aside();
    if lines.one_in(8) {
        put_on_line(&mut file, any_line(&mut lines) as u8);
    }
    if random.one_in(5) {
        let whole = file.clone();
        for _ in 0..random.between(1, 3) {
            damage::damage(&mut random, &mut file);
        }
        // In place of every other wrong length.
        if file.len() != whole.len() && lines.one_in(2) {
            file = whole;
            damage::damage_lines(&mut lines, &mut file);
        }
    }
    let m = set.m as u64;
    let basis = random.below(2) as u64;
    Case {
        m: mostly(
            &mut random,
            m,
            &[0, 1, 21, m + 1, m - 1, m + 256, m + (1 << 32), u64::MAX],
        ),
        file,
        method,
        basis: mostly(&mut random, basis, &[2, 3, 256, u64::MAX]),
        out_len: any_length(&mut random, entry_count(set.m)),
        cut: any_cut(&mut random, m),
    }
}

/// Accepted forecasts, and the halves that they and their windows met.
#[derive(Default)]
pub struct Met {
    pub forecasts: u64,
    pub halves: Halves,
}

/// What the forecasts of these seeds' cases met, by the shape of the set.
pub fn halves_met(seeds: Range<u64>) -> BTreeMap<Shape, Met> {
    let mut met: BTreeMap<Shape, Met> = BTreeMap::new();
    for seed in seeds {
        let case = case(seed);
        let (answer, halves) = during(|| {
            let answer = forecast(&case.file, case.m, case.method, case.basis, case.out_len)?;
            let tally = Tally::of_entries(&answer.entries, case.m as usize);
            let years = ForecastYears::of(&tally, case.m as usize);
            for (_, window) in windows(seed, case.m) {
                years.cash(&window).ok();
            }
            Ok::<(), Refusal>(())
        });
        if answer.is_ok() {
            let met = met.entry(shape_of(seed)).or_default();
            met.forecasts += 1;
            add(&mut met.halves, halves);
        }
    }
    met
}

/// The usual value, and now and then one of the others.
fn mostly(random: &mut Random, usual: u64, others: &[u64]) -> u64 {
    if random.one_in(40) {
        random.pick(others)
    } else {
        usual
    }
}

/// A method that the set allows, and now and then one that it does not.
fn any_method(random: &mut Random, set: &Set) -> u64 {
    let allowed = if set.has_incurred || random.one_in(20) {
        3
    } else {
        1
    };
    let usual = random.below(allowed) as u64;
    mostly(random, usual, &[3, 4, 255, 256, u64::MAX])
}

/// A length that is enough, and now and then one that is not.
fn any_length(random: &mut Random, needed: usize) -> usize {
    if random.one_in(25) {
        random.pick(&[needed - 1, needed / 2, 0])
    } else {
        needed + random.pick(&[0, 1, 100])
    }
}

/// A cut from 1 to m - 2, and now and then another.
fn any_cut(random: &mut Random, m: u64) -> u64 {
    if m == 2 || random.one_in(12) {
        random.pick(&[0, 1, m - 1, m, m + 256, u64::MAX])
    } else {
        1 + random.below(m as usize - 2) as u64
    }
}

/// The set's file by kind, accident year and delay.
pub fn file(set: &Set) -> Vec<u8> {
    let mut bytes = vec![0; file_length(set.m, set.has_incurred)];
    write_set(
        set.m as u64,
        set.line,
        set.has_incurred,
        &set.counts,
        &set.paid,
        &set.incurred,
        &mut bytes,
    )
    .expect("a generated set is written");
    bytes
}

/// The set's file with its records in any order.
pub fn shuffled_file(random: &mut Random, set: &Set) -> Vec<u8> {
    let bytes = file(set);
    let mut records: Vec<&[u8]> = bytes.chunks_exact(16).collect();
    random.shuffle(&mut records);
    records.concat()
}

/// The arguments of the writer.
#[derive(Clone, Debug)]
pub struct WriterCase {
    pub m: u64,
    pub line: u64,
    pub has_incurred: bool,
    pub counts: Values,
    pub paid: Values,
    pub incurred: Values,
    pub out_len: usize,
}

/// The writer's case of a seed: anything stands outside the cells, and now and then a cell is
/// out of range, m or the line is wrong or the output is short.
pub fn writer_case(seed: u64) -> WriterCase {
    let mut random = Random::new(seed);
    let set = any_set(&mut random);
    let (m, needed) = (set.m as u64, file_length(set.m, set.has_incurred));
    let mut written = set.clone();
    for kind in 0..3 {
        let mut values = [0; 400];
        values.fill_with(|| damage::out_of_range(&mut random, kind));
        if kind < set.kinds() {
            for (i, j) in cells(set.m) {
                if !random.one_in(2_000) {
                    values[place(i, j)] = set.triangle(kind)[place(i, j)];
                }
            }
        }
        *written.triangle_mut(kind) = values;
    }
    WriterCase {
        line: mostly(&mut random.aside(), set.line, &[6, 255, 256, 257, u64::MAX]),
        m: mostly(&mut random, m, &[0, 1, 21, m + 256, u64::MAX]),
        has_incurred: set.has_incurred,
        counts: written.counts,
        paid: written.paid,
        incurred: written.incurred,
        out_len: any_length(&mut random, needed),
    }
}

/// An input of `closing`: the case's first line, now and then a wrong one, and its file; rarely
/// nothing at all.
pub fn closing_input(seed: u64) -> Vec<u8> {
    let mut random = Random::new(seed ^ (1 << 40));
    let case = case(seed);
    let (m, method, basis) = (case.m, case.method, case.basis);
    let line = match random.below(80) {
        0 => format!("{m} {method}  {basis}\n"),
        1 => format!(" {m} {method} {basis}\n"),
        2 => format!("{m} {method} {basis} \n"),
        3 => format!("{m} {method} {basis}\r\n"),
        4 => format!("{m} {method}\n"),
        5 => format!("{m} {method} {basis}"),
        6 => format!("{m} -{method} {basis}\n"),
        7 => format!("{m:05} {method} {basis}\n"),
        8 => format!("{m}\t{method} {basis}\n"),
        9 => "\n".to_string(),
        10 => String::new(),
        11 => format!("{m} {method} {basis} 0\n"),
        12 => format!("+{m} {method} {basis}\n"),
        13 | 14 => format!("{m:04} {method:02} {basis:03}\n"),
        15 => format!("{m} {method:05} {basis}\n"),
        16 => format!("{m} {method} {basis:05}\n"),
        17 => format!("{m}  {method} {basis}\n"),
        18 => format!("m {method} {basis}\n"),
        19 => format!("{m} {method} {basis}x\n"),
        20 => return Vec::new(),
        _ => format!("{m} {method} {basis}\n"),
    };
    [line.as_bytes(), &case.file].concat()
}
