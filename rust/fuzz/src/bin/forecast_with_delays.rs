//! `check_delays` and `forecast_with_delays` on any settings, delays, output and bytes: the head is
//! m, the method, the basis, the output's length, of which the lowest 11 bits count, the number of
//! delays, of which the lowest 6 bits count, and so many numbers, 8 bytes each, least byte first. A
//! delay is such a number added to the one that solves the set's system, so that delays stay near
//! when a record changes.
#![no_main]

use compare::Difference;
use fuzz::{any_case, any_settings, change_record, fuzz, numbers, Target};
use reference::forecast::entry_count;
use reference::generate::{given_delays, solved_delays, Given, Random, LIMIT};

const FORECAST_WITH_DELAYS: Target = Target {
    compare,
    generate,
    head,
    any_head,
    change_record,
};

fuzz!(FORECAST_WITH_DELAYS);

/// The numbers of a head, what is added to each delay, and the file.
fn parts(input: &[u8]) -> ([u64; 4], Vec<i64>, &[u8]) {
    let ([settings @ .., number], rest) = numbers::<5>(input);
    let (added, file) = rest.split_at(rest.len().min(8 * (number as usize % 64)));
    let (added, _) = added.as_chunks();
    let added = added.iter().map(|&bytes| i64::from_le_bytes(bytes));
    (settings, added.collect(), file)
}

fn compare(seed: u64, input: &[u8]) -> Result<(), Difference> {
    let ([m, method, basis, length], mut delays, file) = parts(input);
    for (delay, solved) in delays
        .iter_mut()
        .zip(solved_delays(file, m).unwrap_or_default())
    {
        *delay = delay.wrapping_add(solved);
    }
    let room = length as usize % 2_048;
    compare::forecast_with_delays(seed, file, [m, method, basis], &delays, room)
}

fn head(input: &[u8]) -> usize {
    let (_, _, file) = parts(input);
    input.len() - file.len()
}

/// A case with delays of any kind, every other time with a solution where there is one.
fn generate(seed: u64) -> Vec<u8> {
    let mut random = Random::new(seed);
    let (settings, file) = any_case(seed, &mut random);
    let mut made = given_delays(seed, &file, settings[0]);
    let solves = |(given, _): &(Given, _)| matches!(given, Given::Solved | Given::Other);
    if random.one_in(2) && made.iter().any(solves) {
        made.retain(solves);
    }
    let (_, mut added) = made.swap_remove(random.below(made.len()));
    for (delay, solved) in added
        .iter_mut()
        .zip(solved_delays(&file, settings[0]).unwrap_or_default())
    {
        *delay = delay.wrapping_sub(solved);
    }
    [bytes(&mut random, settings, &added), file].concat()
}

/// Any settings with delays that are mostly m and mostly solve the system.
fn any_head(random: &mut Random) -> Vec<u8> {
    let settings = any_settings(random);
    let m = settings[0].min(20) as usize;
    let number = match random.below(8) {
        0 => random.below(64),
        _ => m,
    };
    let mut added = vec![0; number];
    if number > 0 && random.one_in(2) {
        let far = [-LIMIT, LIMIT, i64::MIN, i64::MAX];
        let near = random.between(-2, 2);
        added[random.below(number)] = match random.below(4) {
            0 => random.pick(&far),
            _ => near,
        };
    }
    bytes(random, settings, &added)
}

/// The head of these settings and numbers, with an output that is mostly long enough.
fn bytes(random: &mut Random, settings: [u64; 3], added: &[i64]) -> Vec<u8> {
    let needed = entry_count(settings[0].clamp(1, 20) as usize);
    let length = match random.below(8) {
        0 => random.pick(&[needed - 1, needed / 2, 1, 0]),
        _ => needed + random.pick(&[0, 0, 1, 100]),
    };
    let added = &added[..added.len().min(63)];
    let front = [length as u64, added.len() as u64];
    let numbers = settings.into_iter().chain(front);
    let numbers = numbers.chain(added.iter().map(|&delay| delay as u64));
    numbers.flat_map(u64::to_le_bytes).collect()
}
