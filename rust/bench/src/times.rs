//! Nanoseconds of each call.

use crate::cases::{Case, SIDES};
use std::time::Instant;

/// How often all cases are gone through, so that a busy moment of the machine meets few turns of
/// one.
const PASSES: usize = 10;

/// Turns in a pass, by each side of a case in turn.
const TURNS: usize = 10;

/// The turns of each side, of which the best counts.
pub const ROUNDS: usize = PASSES * TURNS;

/// About how long a turn lasts, in nanoseconds.
const TURN: f64 = 2_000_000.0;

/// The best time of each side of each case, in whole nanoseconds.
pub fn times(cases: &mut [Case]) -> Vec<[u64; SIDES]> {
    let mut best = vec![[f64::INFINITY; SIDES]; cases.len()];
    for _ in 0..PASSES {
        for (case, best) in cases.iter_mut().zip(&mut best) {
            let calls = (TURN / time(&mut case.sides[1], 100)).ceil() as usize;
            for _ in 0..TURNS {
                for (best, call) in best.iter_mut().zip(&mut case.sides) {
                    *best = best.min(time(call, calls));
                }
            }
        }
    }
    best.into_iter()
        .map(|sides| sides.map(|time| time.round() as u64))
        .collect()
}

/// Nanoseconds of one call, from this many.
fn time(call: &mut impl FnMut(), calls: usize) -> f64 {
    let start = Instant::now();
    for _ in 0..calls {
        call();
    }
    start.elapsed().as_nanos() as f64 / calls as f64
}
