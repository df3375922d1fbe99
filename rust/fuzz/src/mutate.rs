//! Changes of an input that keep it near a set or a journal: libFuzzer's own changes alone seldom
//! get past the length and the records.

use crate::system::LLVMFuzzerMutate;
use crate::Target;
use reference::generate::Random;
use reference::records::range;

/// Changes the input of this length at the front of `memory`, and hands back its new length.
pub fn mutate(target: &Target, memory: &mut [u8], length: usize, seed: u64) -> usize {
    let mut random = Random::new(seed);
    let mut input = memory[..length].to_vec();
    for _ in 0..random.between(1, 3) {
        change(target, &mut random, &mut input, memory.len());
    }
    input.truncate(memory.len());
    memory[..input.len()].copy_from_slice(&input);
    input.len()
}

fn change(target: &Target, random: &mut Random, input: &mut Vec<u8>, most: usize) {
    let head = (target.head)(input);
    match random.below(24) {
        0..=3 => any_bytes(input, most),
        4 => *input = generated(target, random),
        5 | 6 => {
            let line = (target.any_head)(random);
            input.splice(..head, line);
        }
        _ => {
            let (_, file) = input.split_at_mut(head);
            let (records, _) = file.as_chunks_mut::<16>();
            if !records.is_empty() {
                (target.change_record)(random, records);
            }
        }
    }
}

/// libFuzzer's own change.
fn any_bytes(input: &mut Vec<u8>, most: usize) {
    let length = input.len().min(most);
    input.resize(most, 0);
    // SAFETY: `most` bytes are lent.
    let length = unsafe { LLVMFuzzerMutate(input.as_mut_ptr(), length, most) };
    input.truncate(length);
}

/// A generated input, mostly one of few years.
fn generated(target: &Target, random: &mut Random) -> Vec<u8> {
    let most = random.pick(&[160, 320, 800, 800, 2_000, usize::MAX]);
    loop {
        let input = (target.generate)(random.number());
        if input.len() - (target.head)(&input) <= most {
            return input;
        }
    }
}

/// Changes a record of a set's file, or the line of cover of all records.
pub fn change_record(random: &mut Random, records: &mut [[u8; 16]]) {
    let (at, other) = (random.below(records.len()), random.below(records.len()));
    let from = records[other];
    match random.below(14) {
        0 => records.swap(at, other),
        1 => records[at] = from,
        2 => records[at][..3].copy_from_slice(&from[..3]),
        3 => {
            let byte = random.below(8);
            records[at][byte] = random.pick(&[0, 1, 2, 3, 19, 20, 21, 128, 255]);
        }
        4 | 5 => records[at][8..].copy_from_slice(&from[8..]),
        // Lines of cover, and the first number that is none.
        6 => {
            let line = random.below(7) as u8;
            records.iter_mut().for_each(|record| record[3] = line);
        }
        7 => records[at][3] = random.below(7) as u8,
        _ => {
            let value = i64::from_le_bytes(records[at][8..].try_into().unwrap());
            let value = any_value(random, records[at][0], value);
            records[at][8..].copy_from_slice(&value.to_le_bytes());
        }
    }
}

/// A value of the kind made from the one that stands there.
fn any_value(random: &mut Random, kind: u8, value: i64) -> i64 {
    let (low, high) = (*range(kind).start(), *range(kind).end());
    match random.below(12) {
        0 => 0,
        1 => random.of_digits(10),
        // Round numbers, by which an edge is met exactly.
        2..=4 => random.between(1, 100) * 10i64.pow(random.between(0, 8) as u32),
        5 => random.pick(&[low, high]),
        6 => random.pick(&[low - 1, low + 1, high - 1, high + 1]),
        7 => value.wrapping_neg(),
        8 => value.wrapping_mul(random.pick(&[2, 3, 10, 1_000])),
        9 => value / random.pick(&[2, 3, 10, 1_000]),
        10 => value.wrapping_add(random.between(-3, 3)),
        _ => value.wrapping_add(value / 100 * random.between(-100, 100)),
    }
}
