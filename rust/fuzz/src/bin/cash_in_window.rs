//! `cash_in_window` on any settings, dates and bytes: the head is m, the method, the basis, and a
//! year, a month and a day for the valuation date, the start and the end, 8 bytes each, least byte
//! first.
#![no_main]

use compare::Difference;
use fuzz::{any_case, any_settings, change_record, fuzz, numbers, Target};
use reference::generate::{windows, Random};
use reference::{Date, Window};

/// The bytes of a head.
const HEAD: usize = 96;

const CASH_IN_WINDOW: Target = Target {
    compare,
    generate,
    head: |input| input.len().min(HEAD),
    any_head: |random| {
        let settings = any_settings(random);
        head(random, settings)
    },
    change_record,
};

fuzz!(CASH_IN_WINDOW);

fn compare(seed: u64, input: &[u8]) -> Result<(), Difference> {
    let ([settings @ .., a, b, c, d, e, f, g, h, i], file) = numbers::<12>(input);
    let window = Window {
        valuation: Date::new(a, b, c),
        start: Date::new(d, e, f),
        end: Date::new(g, h, i),
    };
    compare::cash_in_window(seed, file, settings, &window)
}

fn generate(seed: u64) -> Vec<u8> {
    let mut random = Random::new(seed);
    let (settings, file) = any_case(seed, &mut random);
    [head(&mut random, settings), file].concat()
}

/// The head of these settings, with any window of the forecast years or near them.
fn head(random: &mut Random, settings: [u64; 3]) -> Vec<u8> {
    let made = windows(random.number(), settings[0]);
    let (_, window) = random.pick(&made);
    let dates = window.dates();
    let dates = dates.iter().flat_map(|d| [d.year, d.month, d.day]);
    let numbers = settings.into_iter().chain(dates);
    numbers.flat_map(u64::to_le_bytes).collect()
}
