//! Sets in which r often meets a half.

use super::incurred::fill_incurred;
use super::patterns::{spread, weights};
use super::random::Random;
use super::sets::some_count_and_payment;
use crate::halves::Quotient;
use crate::records::{place, range, Set, Values};
use crate::rounding::r;
use crate::shares::{estimates, signed_64, Triangle};
use crate::Big;

/// S.
const SCALE: i64 = 1_000_000_000;

/// Counts and payments made for halves in their shares, ultimates and weights. In parts, counts
/// make halves of the delays, of both signs, and both together halves of the cells.
pub fn halves(random: &mut Random, set: &mut Set) {
    set.counts = match random.below(5) {
        0..=2 => in_parts(random, 0, set.m),
        3 => halved_rows(random, set.m),
        _ => halved_shares(random, 0, set.m),
    };
    set.paid = match random.below(6) {
        0..=2 => in_parts(random, 1, set.m),
        3 => halved_shares(random, 1, set.m),
        _ => {
            let (pattern, size) = (weights(random, set.m), random.of_digits(11));
            spread(random, 1, &pattern, size, 10)
        }
    };
    some_count_and_payment(set);
}

/// Incurred to go with them, mostly made for halves too.
pub fn incurred_halves(random: &mut Random, set: &mut Set) {
    match random.below(8) {
        0 => fill_incurred(random, set),
        1 => set.incurred = in_parts(random, 2, set.m),
        2 => set.incurred = halved_shares(random, 2, set.m),
        _ => estimated_at_once(random, set),
    }
}

/// Estimates that stay as they are, so that W is known. Year 1 has twice what is paid, so that
/// BDCL's row bases are halves of W. The others are off what is paid by odd multiples of half of R,
/// less what it has in common with U, so that IDCL's row bases are halves of both signs.
fn estimated_at_once(random: &mut Random, set: &mut Set) {
    let Ok(found) = estimates(set) else {
        return fill_incurred(random, set);
    };
    for i in 1..=set.m {
        let (u, paid) = (&found.u[i - 1], &found.paid.latest(i));
        let [u, paid] = [u, paid].map(signed_64);
        let part = (u - paid) / common(u, u - paid).max(1);
        let half = (part / 2).max(1);
        let off = half * (random.between((-paid / half).max(-4), 1) | 1);
        let estimate = if i == 1 { 2 * paid } else { paid + off };
        set.incurred[place(i, 0)] = estimate.clamp(0, *range(2).end());
    }
}

/// Rows in 5 or 25 parts, in twos or fours but for a single one. Before that one a row may be half
/// of what its ultimate needs; from it on R has twos that U has not. An even b(0) halves delays.
fn in_parts(random: &mut Random, kind: u8, m: usize) -> Values {
    let (parts, step) = (random.pick(&[5, 5, 5, 25]), random.pick(&[2, 4]));
    let mut pattern = vec![0; m];
    pattern[0] = step;
    for _ in 1..parts / step {
        pattern[random.below(m)] += step;
    }
    let single = match kind {
        0 => 1 + random.below(m - 1),
        _ if random.one_in(3) => random.below(m),
        _ => 0,
    };
    pattern[single] += 1;
    rows(random, kind, &pattern)
}

/// Rows of one pattern, made from its end: where g(j) has v twos, 2^(v+1) parts are known at delay
/// j and an odd number of them before it, so that g(j-1) is a half.
fn halved_shares(random: &mut Random, kind: u8, m: usize) -> Values {
    let (mut g, mut known) = (SCALE, 1 << 20);
    let mut pattern = vec![0; m];
    for j in (1..m).rev() {
        let parts = 2 << g.trailing_zeros();
        if known % parts == 0 && random.below(3) > 0 {
            let odd = 2 * random.between(parts / 4, parts / 2 - 1) + 1;
            let share = r(Quotient::Share, &Big::from(g * odd), &Big::from(parts));
            g = share.to_i64().expect("a share");
            pattern[j] = known / parts * (parts - odd);
            known -= pattern[j];
        }
    }
    pattern[0] = known;
    rows(random, kind, &pattern)
}

/// Rows of a pattern, each a multiple of the least that is whole.
fn rows(random: &mut Random, kind: u8, pattern: &[i64]) -> Values {
    let m = pattern.len();
    let most = range(kind).end() / pattern.iter().sum::<i64>();
    let mut values = [0; 400];
    for i in 1..=m {
        let known = &pattern[..=m - i];
        let divisor = known.iter().fold(0, |divisor, &part| common(divisor, part));
        let units = random.of_digits(8).min(most);
        for (j, part) in known.iter().enumerate() {
            values[place(i, j)] = units * part / divisor;
        }
    }
    values
}

/// The greatest common divisor.
fn common(a: i64, b: i64) -> i64 {
    if b == 0 {
        a
    } else {
        common(b, a % b)
    }
}

/// Counts with rows in 2^(v+1) parts, where g(m-i), which follows from the rows above, has v twos:
/// the weights of odd parts are halves.
fn halved_rows(random: &mut Random, m: usize) -> Values {
    let (mut g, mut counts) = (SCALE, [0; 400]);
    for i in 1..=m {
        let parts = 2 << g.trailing_zeros().min(11);
        let first = random.between(1, parts);
        let units = random.of_digits(3);
        counts[place(i, 0)] = units * first;
        for _ in first..parts {
            counts[place(i, random.below(m - i + 1))] += units;
        }
        if i < m {
            let share = &Triangle::new(m, &counts).g()[m - i - 1];
            g = share.to_i64().expect("a share");
        }
    }
    counts
}
