//! Sets at the edge between acceptance and refusal.

use super::random::Random;
use crate::delays::solved;
use crate::records::{cells, place, range, Set};
use crate::row_bases::row_bases;
use crate::shares::estimates;

/// From an accepted number, the last accepted one before a refused one towards `far`; `far`
/// where that is accepted itself.
pub fn last_accepted(accepted: i64, far: i64, test: impl Fn(i64) -> bool) -> i64 {
    if test(far) {
        return far;
    }
    let (mut good, mut bad) = (accepted, far);
    while good.abs_diff(bad) > 1 {
        let middle = good + (bad - good) / 2;
        if test(middle) {
            good = middle;
        } else {
            bad = middle;
        }
    }
    good
}

/// Whether questions 9 to 14 get a yes.
fn accepted(set: &Set, method: u64) -> bool {
    let bases = estimates(set).and_then(|found| {
        solved(&found)?;
        row_bases(set, &found, method)
    });
    bases.is_ok()
}

/// Moves one cell of an accepted set towards an end of its range until a question refuses, and
/// stops just before or just past that place. Other sets stay as they are.
pub fn to_the_edge(random: &mut Random, set: &mut Set, method: u64) {
    if !accepted(set, method) {
        return;
    }
    let kind = random.below(usize::from(set.kinds())) as u8;
    let all: Vec<(usize, usize)> = cells(set.m).collect();
    let (i, j) = random.pick(&all);
    let far = if random.one_in(2) {
        *range(kind).start()
    } else {
        *range(kind).end()
    };
    let start = set.triangle(kind)[place(i, j)];
    let with = |value: i64| {
        let mut moved = set.clone();
        moved.triangle_mut(kind)[place(i, j)] = value;
        moved
    };
    let edge = last_accepted(start, far, |value| accepted(&with(value), method));
    let past = random.one_in(2) && edge != far;
    *set = with(if past {
        edge + (far - edge).signum()
    } else {
        edge
    });
}
