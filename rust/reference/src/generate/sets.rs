//! Sets of many shapes, with every value in its range.

use super::edges::last_accepted;
use super::halves::{halves, incurred_halves};
use super::incurred::fill_incurred;
use super::patterns::{spread, weights};
use super::random::Random;
use crate::delays::solved;
use crate::records::{cells, place, range, Set};
use crate::shares::estimates;

/// How a set is made.
#[derive(Clone, Copy, Debug, PartialEq, Eq, PartialOrd, Ord)]
pub enum Shape {
    Tidy,
    Wild,
    Limits,
    Sparse,
    Settled,
    EvenParts,
    UnpaidYears,
    Halves,
}

impl Shape {
    /// The name in reports.
    pub fn name(self) -> &'static str {
        match self {
            Shape::Tidy => "tidy",
            Shape::Wild => "wild",
            Shape::Limits => "limits",
            Shape::Sparse => "sparse",
            Shape::Settled => "settled",
            Shape::EvenParts => "even parts",
            Shape::UnpaidYears => "unpaid years",
            Shape::Halves => "halves",
        }
    }

    fn fill(self, random: &mut Random, set: &mut Set) {
        match self {
            Shape::Tidy => tidy(random, set),
            Shape::Wild => wild(random, set),
            Shape::Limits => limits(random, set),
            Shape::Sparse => sparse(random, set),
            Shape::Settled => settled(random, set),
            Shape::EvenParts => even_parts(random, set),
            Shape::UnpaidYears => unpaid_years(random, set),
            Shape::Halves => halves(random, set),
        }
        match self {
            _ if !set.has_incurred => {}
            Shape::Halves => incurred_halves(random, set),
            _ => fill_incurred(random, set),
        }
    }
}

/// An empty set, and its shape.
fn any_frame(random: &mut Random) -> (Set, Shape) {
    let largest = random.pick(&[4, 12, 12, 20]);
    let m = if random.one_in(25) {
        20
    } else {
        random.between(2, largest) as usize
    };
    let set = Set::empty(m, random.below(4) > 0);
    let shape = match random.below(11) {
        0..=3 => Shape::Tidy,
        4 | 5 => Shape::Wild,
        6 => Shape::Limits,
        7 => Shape::Sparse,
        8 => Shape::Settled,
        9 => Shape::EvenParts,
        _ => Shape::UnpaidYears,
    };
    (set, shape)
}

/// A set of any size, any line and any shape but `Halves`, with or without incurred.
pub fn any_set(random: &mut Random) -> Set {
    let frame = any_frame(random);
    filled(random, frame)
}

/// The set of a frame, on any line; that has a source of its own, so that no cell hangs on it.
fn filled(random: &mut Random, (mut set, shape): (Set, Shape)) -> Set {
    shape.fill(random, &mut set);
    set.line = any_line(&mut random.aside());
    set
}

/// A line of cover, line 0 a little more often than another.
pub fn any_line(random: &mut Random) -> u64 {
    random.pick(&[0, 0, 1, 2, 3, 4, 5])
}

/// Those of a seed: each eighth one is for halves.
fn frame(seed: u64, random: &mut Random) -> (Set, Shape) {
    let (set, shape) = any_frame(random);
    match seed % 8 {
        0 => (set, Shape::Halves),
        _ => (set, shape),
    }
}

/// The set of a seed.
pub fn set_of(seed: u64, random: &mut Random) -> Set {
    let frame = frame(seed, random);
    filled(random, frame)
}

/// Its shape.
pub fn shape_of(seed: u64) -> Shape {
    frame(seed, &mut Random::new(seed)).1
}

/// Falling patterns with some noise.
fn tidy(random: &mut Random, set: &mut Set) {
    let noise = random.pick(&[0, 1, 10, 50]);
    let pattern = weights(random, set.m);
    let size = random.of_digits(7);
    set.counts = spread(random, 0, &pattern, size, noise);
    let pattern = weights(random, set.m);
    let size = random.of_digits(11);
    set.paid = spread(random, 1, &pattern, size, noise);
    some_count_and_payment(set);
}

/// A count in every row, and a payment in the first.
pub fn some_count_and_payment(set: &mut Set) {
    for i in 1..=set.m {
        let count = &mut set.counts[place(i, 0)];
        *count = (*count).max(1);
    }
    let payment = &mut set.paid[place(1, 0)];
    *payment = (*payment).max(1);
}

/// Late reports outweigh early ones, so that the delays swing wide between plus and minus: the
/// late weights grow until question 12 refuses, and the set stays at or near that edge.
fn wild(random: &mut Random, set: &mut Set) {
    let m = set.m;
    let late = late_weights(random, m);
    let mut early = weights(random, m);
    if random.below(3) > 0 {
        early[0] = random.between(10_000_000, 1_000_000_000);
    }
    let (size, noise) = (
        random.between(1_000_000, 6_000_000),
        random.pick(&[0, 0, 2]),
    );
    set.paid = spread(random, 1, &early, 1_000 * size, noise);
    let seed = random.number();
    let with_late = |set: &Set, x: i64| {
        let mut set = set.clone();
        let mut weights: Vec<i64> = late.iter().map(|weight| weight * x / 1_000).collect();
        weights[0] = 1_000_000;
        set.counts = spread(&mut Random::new(seed), 0, &weights, size, noise);
        set
    };
    let solvable = |x: i64| {
        estimates(&with_late(set, x))
            .and_then(|found| solved(&found))
            .is_ok()
    };
    let edge = last_accepted(0, 1_000_000, solvable);
    let chosen = match random.below(8) {
        0 => edge + 1,
        1..=4 => edge,
        _ => random.between(edge * 8 / 10, edge),
    };
    *set = with_late(set, chosen);
}

/// Weights in thousandths of the first delay's: one late delay, any, or rising ones.
fn late_weights(random: &mut Random, m: usize) -> Vec<i64> {
    let mut late = vec![0; m];
    match random.below(3) {
        0 => late[1 + random.below(m - 1)] = random.between(1_000, 9_000),
        1 => late[1..].fill_with(|| random.between(0, 3_000)),
        _ => {
            let mut weight = random.between(100, 2_000);
            for at in late.iter_mut().skip(1) {
                *at = weight;
                weight = (weight * random.between(90, 150) / 100).min(9_000);
            }
        }
    }
    late
}

/// Values at the ends of their ranges and beside them.
fn limits(random: &mut Random, set: &mut Set) {
    let all = random.one_in(4);
    for kind in 0..2 {
        let most = *range(kind).end();
        for (i, j) in cells(set.m) {
            let value = if all || j == 0 {
                random.pick(&[most, most, most - 1])
            } else {
                random.pick(&[0, 0, 0, most, most - 1, 1])
            };
            set.triangle_mut(kind)[place(i, j)] = value;
        }
    }
    if random.one_in(3) {
        let row = 1 + random.below(set.m);
        for j in 0..=set.m - row {
            set.counts[place(row, j)] = 0;
        }
        set.counts[place(row, 0)] = 1;
    }
}

/// Small numbers and many zeros.
fn sparse(random: &mut Random, set: &mut Set) {
    for (i, j) in cells(set.m) {
        if j == 0 || random.one_in(3) {
            set.counts[place(i, j)] = random.between(0, 3);
        }
        if random.one_in(2) {
            set.paid[place(i, j)] = random.between(0, 20);
        }
    }
    some_count_and_payment(set);
}

/// Nearly all is paid at once, so that the reserves of small years round away.
fn settled(random: &mut Random, set: &mut Set) {
    tidy(random, set);
    set.paid = [0; 400];
    for i in 1..=set.m {
        let most = if i == 1 { 10_000_000_000 } else { 3_000 };
        set.paid[place(i, 0)] = random.between(most / 2, most);
    }
    for j in 1..set.m {
        set.paid[place(1, j)] = random.between(0, 3_000_000);
    }
}

/// Years without payments.
fn unpaid_years(random: &mut Random, set: &mut Set) {
    tidy(random, set);
    for i in 2..=set.m {
        if random.one_in(2) {
            for j in 0..=set.m - i {
                set.paid[place(i, j)] = 0;
            }
        }
    }
}

/// Rows in eighths, tenths or sixteenths, so that halves come up in many places.
fn even_parts(random: &mut Random, set: &mut Set) {
    set.m = random.between(2, 6) as usize;
    for kind in 0..2 {
        let parts = random.pick(&[8, 10, 16]);
        let mut pattern = vec![0; set.m];
        pattern[0] = random.between(1, parts);
        for _ in pattern[0]..parts {
            pattern[random.below(set.m)] += 1;
        }
        let units: Vec<i64> = (0..set.m).map(|_| random.between(1, 60)).collect();
        for (i, j) in cells(set.m) {
            set.triangle_mut(kind)[place(i, j)] = units[i - 1] * pattern[j];
        }
    }
}
