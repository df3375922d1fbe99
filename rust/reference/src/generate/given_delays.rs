//! Given delays: every kind that solves a set's system, and those that do not.

use super::random::Random;
use crate::big::Big;
use crate::delays::solve;
use crate::given_delays::{twice_distance, Estimated};
use crate::records::read_set;
use crate::rounding::scale;
use crate::shares::Estimates;

/// The end of question 12's range.
pub const LIMIT: i64 = 8_000_000_000;

/// How given delays are made.
#[derive(Clone, Copy, Debug, PartialEq, Eq, PartialOrd, Ord)]
pub enum Given {
    /// Solved as the call for delays does.
    Solved,
    /// Solved with the other neighbour of one half or of several.
    Other,
    /// Solved, and then one of them one up.
    Up,
    /// One of them one down.
    Down,
    /// One of them at an end of question 12's range.
    Limit,
    /// One of them just past it.
    Past,
    /// One or all of them at an end of 64 bits.
    Extreme,
    /// Negative ones made zero.
    Clipped,
    /// Any of the range.
    Any,
    /// None.
    Empty,
    /// One too few.
    Fewer,
    /// One too many.
    More,
    /// As a list of 20, with zeros behind the last one.
    Twenty,
    /// Many more than any set has.
    Many,
}

impl Given {
    pub const ALL: [Given; 14] = [
        Given::Solved,
        Given::Other,
        Given::Up,
        Given::Down,
        Given::Limit,
        Given::Past,
        Given::Extreme,
        Given::Clipped,
        Given::Any,
        Given::Empty,
        Given::Fewer,
        Given::More,
        Given::Twenty,
        Given::Many,
    ];

    /// The name in reports.
    pub fn name(self) -> &'static str {
        match self {
            Given::Solved => "delays, solved",
            Given::Other => "delays, other solution",
            Given::Up => "delays, one up",
            Given::Down => "delays, one down",
            Given::Limit => "delays, at the limit",
            Given::Past => "delays, past the limit",
            Given::Extreme => "delays, extreme",
            Given::Clipped => "delays, clipped",
            Given::Any => "delays, any",
            Given::Empty => "delays, none",
            Given::Fewer => "delays, one too few",
            Given::More => "delays, one too many",
            Given::Twenty => "delays, 20 of them",
            Given::Many => "delays, many",
        }
    }

    /// Whether question 20 gets a yes for some set.
    pub fn can_stand(self) -> bool {
        !matches!(
            self,
            Given::Past | Given::Extreme | Given::Empty | Given::Fewer | Given::More | Given::Many
        )
    }
}

/// The delays that solve the system of a file's set, in range or not; nothing where the set has no
/// estimates.
pub fn solved_delays(file: &[u8], m: u64) -> Option<Vec<i64>> {
    let Estimated { estimates, .. } = read_set(file, m).and_then(Estimated::of).ok()?;
    Some(signed_64(&solve(&estimates.b, &estimates.q)))
}

/// Delays of each kind for the set of a file, those with one changed for each place; where the set
/// has no estimates, around any delays, and of each kind one that does not hang on the set.
pub fn given_delays(seed: u64, file: &[u8], m: u64) -> Vec<(Given, Vec<i64>)> {
    let mut random = Random::new(seed ^ (1 << 46));
    let years = m.clamp(2, 20) as usize;
    let mut made = Vec::new();
    let any: Vec<i64> = (0..years).map(|_| random.between(-LIMIT, LIMIT)).collect();
    let (solved, places) = match read_set(file, m).and_then(Estimated::of) {
        Ok(Estimated { estimates, .. }) => {
            let solved = signed_64(&solve(&estimates.b, &estimates.q));
            made.push((Given::Solved, solved.clone()));
            let clipped = solved.iter().map(|&delay| delay.max(0)).collect();
            made.push((Given::Clipped, clipped));
            let others = other_solutions(&mut random, &estimates);
            made.extend(others.iter().map(|p| (Given::Other, signed_64(p))));
            (solved, 0..years)
        }
        Err(_) => {
            let place = random.below(years);
            (any.clone(), place..place + 1)
        }
    };
    for at in places {
        let (far, value) = any_far(&mut random);
        let changes = [
            (Given::Up, solved[at].saturating_add(1)),
            (Given::Down, solved[at].saturating_sub(1)),
            (far, value),
        ];
        for (given, value) in changes {
            let mut changed = solved.clone();
            changed[at] = value;
            made.push((given, changed));
        }
    }
    let all = random.pick(&[i64::MIN, i64::MAX]);
    let more = random.pick(&[0, 1, LIMIT, i64::MIN, i64::MAX]);
    let padded = |length: usize, with: i64| {
        let mut padded = solved.clone();
        padded.resize(length, with);
        padded
    };
    made.extend([
        (Given::Extreme, vec![all; years]),
        (Given::Any, any),
        (Given::Empty, Vec::new()),
        (Given::Fewer, padded(years - 1, 0)),
        (Given::More, padded(years + 1, more)),
        (Given::Twenty, padded(20, 0)),
        (
            Given::Many,
            padded(random.pick(&[21, 40, 256, 1_000]), more),
        ),
    ]);
    made
}

/// A delay at or past an end of question 12's range, or at an end of 64 bits.
fn any_far(random: &mut Random) -> (Given, i64) {
    random.pick(&[
        (Given::Limit, -LIMIT),
        (Given::Limit, LIMIT),
        (Given::Past, -LIMIT - 1),
        (Given::Past, LIMIT + 1),
        (Given::Extreme, i64::MIN),
        (Given::Extreme, i64::MAX),
    ])
}

/// Solutions of the system beside the one solved here: for each half that it met one that takes the
/// other neighbour there and rounds all that follow, and one that takes either neighbour of every
/// half. They may leave question 12's range.
pub fn other_solutions(random: &mut Random, found: &Estimates) -> Vec<Vec<Big>> {
    let solved = solve(&found.b, &found.q);
    let mut others = Vec::new();
    for l in 0..solved.len() {
        let values = next_values(found, &solved[..l]);
        for value in values.into_iter().filter(|value| *value != solved[l]) {
            let start = [&solved[..l], &[value]].concat();
            others.push(continued(found, start, even));
        }
    }
    if !others.is_empty() {
        let either = continued(found, Vec::new(), |values| random.below(values.len()));
        others.extend(Some(either).filter(|p| *p != solved));
    }
    others
}

/// The place of the even one of two.
fn even(values: &[Big]) -> usize {
    values.iter().position(Big::is_even).unwrap_or(0)
}

/// All m delays from these on; of two that a next one may be, the chosen one.
fn continued(
    found: &Estimates,
    mut p: Vec<Big>,
    mut choose: impl FnMut(&[Big]) -> usize,
) -> Vec<Big> {
    while p.len() < found.q.len() {
        let mut values = next_values(found, &p);
        p.push(values.swap_remove(choose(&values)));
    }
    p
}

/// What question 20 lets the next delay be behind these, but for its range: one number, or both
/// neighbours of a half.
pub fn next_values(found: &Estimates, p: &[Big]) -> Vec<Big> {
    let (b, l) = (&found.b, p.len());
    let earlier: Big = (1..=l).map(|k| &b[k] * &p[l - k]).sum();
    let (near, _) = (scale() * &found.q[l] - earlier).div_rem(&b[0]);
    let stands = |value: &Big| {
        let with = [p, std::slice::from_ref(value)].concat();
        twice_distance(found, &with) <= b[0]
    };
    let values = [-1i64, 0, 1].map(|off| &near + Big::from(off));
    values.into_iter().filter(stands).collect()
}

/// Delays in 64 bits, the nearest number where one is past them.
fn signed_64(p: &[Big]) -> Vec<i64> {
    let nearest = |delay: &Big| match delay.to_i64() {
        Some(delay) => delay,
        None if delay.is_negative() => i64::MIN,
        None => i64::MAX,
    };
    p.iter().map(nearest).collect()
}
