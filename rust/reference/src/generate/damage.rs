//! Sets that questions 9 to 14 refuse, and files that questions 2 to 5 refuse.

use super::random::Random;
use crate::records::{cells, place, range, Set};

/// Makes the set fail, or nearly fail, one of questions 9 to 11.
pub fn unfit_shares(random: &mut Random, set: &mut Set) {
    let m = set.m;
    match random.below(5) {
        // A row without counts.
        0 => {
            let i = 1 + random.below(m);
            set.counts[place(i, 0)..=place(i, m - i)].fill(0);
        }
        // B(j) = 0 of paid.
        1 => {
            let j = 1 + random.below(m - 1);
            for i in 1..=m - j {
                set.paid[place(i, 0)..=place(i, j)].fill(0);
            }
        }
        // A(1) = 0 of paid, so that g(0) = 0.
        2 => (1..m).for_each(|i| set.paid[place(i, 0)] = 0),
        // g(0) about 10^6.
        3 => set.counts = thin_start(random, m),
        _ => set.paid = thin_start(random, m),
    }
}

/// One at delay 0 and about 999 at the next.
fn thin_start(random: &mut Random, m: usize) -> [i64; 400] {
    let mut values = [0; 400];
    for i in 1..=m {
        values[place(i, 0)] = 1;
        if i < m {
            values[place(i, 1)] = random.between(998, 1_000);
        }
    }
    values
}

/// Makes the incurred triangle fail question 13 in one of its ways.
pub fn unfit_incurred(random: &mut Random, set: &mut Set) {
    let m = set.m;
    let incurred = &mut set.incurred;
    match random.below(6) {
        // A(1) = 0.
        0 => (1..=m).for_each(|i| incurred[place(i, 0)] = 0),
        // B(m-1) = 0 or below, or row i's latest sum below zero.
        1 | 2 => {
            let i = if random.one_in(2) {
                1
            } else {
                1 + random.below(m - 1)
            };
            let latest = place(i, m - i);
            let before: i64 = incurred[place(i, 0)..latest].iter().sum();
            let target = -before - random.between(0, 1);
            incurred[latest] = target.max(*range(2).start());
        }
        // The last row below zero: it is in no A(j) or B(j).
        3 => incurred[place(m, 0)] = -random.of_digits(10),
        // g(0) below 10^6.
        4 => {
            for (i, j) in cells(m) {
                incurred[place(i, j)] = if j == 0 {
                    1
                } else {
                    random.between(990, 1_010)
                };
            }
        }
        // g(0) about 4 × 10^9.
        _ => {
            for (i, j) in cells(m) {
                incurred[place(i, j)] = match j {
                    0 => 4_000,
                    1 => random.between(-3_002, -2_998),
                    _ => 0,
                };
            }
        }
    }
}

/// Brings V out of question 14's range, by method 1 or by method 2.
pub fn unfit_bases(random: &mut Random, set: &mut Set) {
    let m = set.m;
    set.paid = [0; 400];
    set.incurred = [0; 400];
    for i in 1..=m {
        set.paid[place(i, 0)] = random.between(1_000_000_000, 10_000_000_000);
        set.incurred[place(i, 0)] = random.of_digits(10);
    }
    // A first incurred row that is small, or a last one that may be zero.
    if random.one_in(2) {
        set.incurred[place(1, 0)] = random.between(1, 50_000);
    } else {
        set.incurred[place(m, 0)] = random.between(0, 50_000);
    }
    // Reserves that are small and above zero.
    set.paid[place(1, m - 1)] += random.between(0, 3);
}

/// One record in 16 bytes of the file.
fn any_record<'a>(random: &mut Random, file: &'a mut [u8]) -> &'a mut [u8] {
    let at = 16 * random.below(file.len() / 16);
    &mut file[at..at + 16]
}

/// Puts all records of a file on one line.
pub fn put_on_line(file: &mut [u8], line: u8) {
    file.chunks_exact_mut(16)
        .for_each(|record| record[3] = line);
}

/// Damages the lines of cover, or a byte behind one, so that question 3 refuses.
pub fn damage_lines(random: &mut Random, file: &mut [u8]) {
    let last = file.len() - 16;
    match random.below(5) {
        // One record on another line: any, the first, the last.
        0 => {
            let record = any_record(random, file);
            record[3] = other_line(random, record[3]);
        }
        1 => file[3] = other_line(random, file[3]),
        2 => file[last + 3] = other_line(random, file[last + 3]),
        // All on a line that there is not.
        3 => put_on_line(file, random.pick(&[6, 7, 128, 255])),
        // A spare byte that is not zero.
        _ => {
            let spare = 4 + random.below(4);
            any_record(random, file)[spare] = random.pick(&[1, 5, 128, 255]);
        }
    }
}

/// A line that is not this one, mostly one that there is.
fn other_line(random: &mut Random, line: u8) -> u8 {
    let mut lines = vec![0, 1, 2, 3, 4, 5, 6, 255];
    lines.retain(|&other| other != line);
    random.pick(&lines)
}

/// Damages the file so that one of questions 2 to 5 refuses, or rarely none.
pub fn damage(random: &mut Random, file: &mut Vec<u8>) {
    if file.len() < 32 {
        return;
    }
    match random.below(12) {
        0 => file.truncate(file.len() - 1 - random.below(40).min(file.len() - 1)),
        1 => file.truncate(file.len() - 16),
        2 => (0..=random.below(20)).for_each(|_| file.push(0)),
        3 => file.extend_from_within(..16),
        4 => any_record(random, file)[0] = random.pick(&[0, 1, 2, 3, 255]),
        5 => any_record(random, file)[1] = random.pick(&[0, 1, 2, 20, 21, 255]),
        6 => any_record(random, file)[2] = random.pick(&[0, 1, 2, 19, 20, 255]),
        7 => {
            // Another line, or a spare byte that is not zero.
            let at = 3 + random.below(5);
            any_record(random, file)[at] ^= random.pick(&[1, 128, 255]);
        }
        8 => {
            let copied = any_record(random, file).to_vec();
            any_record(random, file).copy_from_slice(&copied);
        }
        9 => {
            let cell = any_record(random, file)[..3].to_vec();
            any_record(random, file)[..3].copy_from_slice(&cell);
        }
        _ => {
            let record = any_record(random, file);
            let value = out_of_range(random, record[0]);
            record[8..].copy_from_slice(&value.to_le_bytes());
        }
    }
}

/// A value just outside, or far outside, a kind's range.
pub fn out_of_range(random: &mut Random, kind: u8) -> i64 {
    let (low, high) = (*range(kind).start(), *range(kind).end());
    random.pick(&[low - 1, high + 1, i64::MIN, i64::MAX, high + (1 << 40)])
}
