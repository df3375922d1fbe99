//! `read_set` on any m and bytes, and `write_set` on what was read: the head is m, 8 bytes, least
//! byte first.
#![no_main]

use compare::Difference;
use fuzz::{any_case, any_m, change_record, fuzz, numbers, Target};
use reference::generate::Random;

const READ_SET: Target = Target {
    compare,
    generate,
    head: |input| input.len().min(8),
    any_head: |random| any_m(random).to_le_bytes().to_vec(),
    change_record,
};

fuzz!(READ_SET);

fn compare(seed: u64, input: &[u8]) -> Result<(), Difference> {
    let ([m], file) = numbers(input);
    compare::read_set(seed, file, m)
}

fn generate(seed: u64) -> Vec<u8> {
    let mut random = Random::new(seed);
    let ([m, ..], file) = any_case(seed, &mut random);
    [&m.to_le_bytes()[..], &file].concat()
}
