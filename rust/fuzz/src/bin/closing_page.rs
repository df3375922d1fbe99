//! `closing_page` on any settings, page and bytes: the head is m, the method, the basis and the
//! page's length, 8 bytes each, least byte first; of the length the lowest 12 bits count.
#![no_main]

use compare::Difference;
use fuzz::{any_case, any_settings, change_record, fuzz, numbers, Target};
use reference::generate::Random;
use reference::page::page_length;

/// The bytes of a head.
const HEAD: usize = 32;

const CLOSING_PAGE: Target = Target {
    compare,
    generate,
    head: |input| input.len().min(HEAD),
    any_head: |random| {
        let settings = any_settings(random);
        head(random, settings)
    },
    change_record,
};

fuzz!(CLOSING_PAGE);

fn compare(seed: u64, input: &[u8]) -> Result<(), Difference> {
    let ([m, method, basis, length], file) = numbers(input);
    compare::closing_page(seed, file, [m, method, basis], length as usize % 4_096)
}

fn generate(seed: u64) -> Vec<u8> {
    let mut random = Random::new(seed);
    let (settings, file) = any_case(seed, &mut random);
    [head(&mut random, settings), file].concat()
}

/// The head of these settings, with a page that is mostly long enough.
fn head(random: &mut Random, settings: [u64; 3]) -> Vec<u8> {
    let needed = page_length(settings[0].clamp(1, 21) as usize);
    let length = match random.below(8) {
        0 => random.pick(&[needed - 1, needed / 2, 1, 0]),
        _ => needed + random.pick(&[0, 0, 1, 100]),
    };
    let numbers = settings.into_iter().chain([length as u64]);
    numbers.flat_map(u64::to_le_bytes).collect()
}
