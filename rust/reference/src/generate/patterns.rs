//! How rows are spread over their delays.

use super::random::Random;
use crate::records::{place, range, Values};

/// Weights of delays 0 to m - 1, mostly falling.
pub fn weights(random: &mut Random, m: usize) -> Vec<i64> {
    let ratio = random.between(5, 95);
    let mut weights = vec![1_000_000];
    for j in 1..m {
        weights.push(weights[j - 1] * ratio / 100);
    }
    match random.below(6) {
        0 => weights[0] = weights[1],
        1 => {
            for weight in &mut weights[1..] {
                if random.one_in(3) {
                    *weight = 0;
                }
            }
        }
        2 => weights[1..].fill(0),
        _ => {}
    }
    weights
}

/// Rows of about this size, spread by the weights, each cell off by at most `noise` percent.
pub fn spread(random: &mut Random, kind: u8, weights: &[i64], size: i64, noise: i64) -> Values {
    let m = weights.len();
    let total: i128 = weights.iter().map(|&weight| i128::from(weight)).sum();
    let mut values = [0; 400];
    for i in 1..=m {
        let row = i128::from(size) * i128::from(random.between(30, 170));
        for j in 0..=m - i {
            let percent = i128::from(random.between(100 - noise, 100 + noise));
            let value = row * i128::from(weights[j]) / total * percent / 10_000;
            let (low, high) = (*range(kind).start(), *range(kind).end());
            values[place(i, j)] = value.clamp(low.into(), high.into()) as i64;
        }
    }
    values
}
