//! Incurred triangles to go with a set's payments.

use super::patterns::{spread, weights};
use super::random::Random;
use crate::records::{cells, place, range, Set};

/// Fills the incurred triangle in one of several ways, each value in its range.
pub fn fill_incurred(random: &mut Random, set: &mut Set) {
    match random.below(7) {
        0 | 1 => case_estimates(random, set, 90, 250),
        2 => case_estimates(random, set, 0, 100),
        3 => set.incurred = set.paid,
        4 => {
            let size = random.of_digits(10);
            let pattern = weights(random, set.m);
            set.incurred = spread(random, 2, &pattern, size, 20);
        }
        5 => falling(random, set),
        _ => limits(random, set),
    }
}

/// The first estimate is a part of the row's payments in percent; later cells correct it up or
/// down.
fn case_estimates(random: &mut Random, set: &mut Set, low: i64, high: i64) {
    let most = *range(2).end();
    for i in 1..=set.m {
        let paid: i64 = set.paid[place(i, 0)..=place(i, set.m - i)].iter().sum();
        let estimate = paid / 100 * random.between(low, high) + random.between(0, 200);
        let estimate = estimate.min(most);
        set.incurred[place(i, 0)] = estimate;
        for j in 1..=set.m - i {
            set.incurred[place(i, j)] = random.between(-estimate / 30, estimate / 30);
        }
    }
}

/// First estimates much too high: large negative corrections, and shares above S.
fn falling(random: &mut Random, set: &mut Set) {
    for i in 1..=set.m {
        let mut left = random.of_digits(10);
        set.incurred[place(i, 0)] = left;
        for j in 1..=set.m - i {
            let back = left * random.between(0, 60) / 100;
            set.incurred[place(i, j)] = -back;
            left -= back;
        }
    }
}

/// Ends of the range; a row goes below zero only now and then.
fn limits(random: &mut Random, set: &mut Set) {
    let most = *range(2).end();
    let mut row_sum = 0;
    for (i, j) in cells(set.m) {
        if j == 0 {
            row_sum = 0;
        }
        let mut value = random.pick(&[0, 0, 1, -1, most, most - 1, -most, 1 - most]);
        if j == 0 || row_sum + value < 0 && !random.one_in(50) {
            value = random.pick(&[most, most - 1]);
        }
        set.incurred[place(i, j)] = value;
        row_sum += value;
    }
}
