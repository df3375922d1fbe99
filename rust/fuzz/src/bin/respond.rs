//! `respond` on any bytes: the head is the first line.
#![no_main]

use fuzz::{any_example, change_record, fuzz, Target};
use reference::generate::{closing_input, Random};

const RESPOND: Target = Target {
    compare: compare::respond,
    generate,
    head: |input| match input.iter().position(|&byte| byte == b'\n') {
        Some(newline) => newline + 1,
        None => 0,
    },
    any_head,
    change_record,
};

fuzz!(RESPOND);

fn generate(seed: u64) -> Vec<u8> {
    let mut random = Random::new(seed);
    if random.one_in(8) {
        let (m, file) = any_example(&mut random);
        [first_line(&mut random, m), file].concat()
    } else {
        closing_input(seed)
    }
}

fn any_head(random: &mut Random) -> Vec<u8> {
    let m = random.pick(&[2, 2, 2, 3, 3, 4, 5, 10, 20, 21, 1]);
    first_line(random, m)
}

fn first_line(random: &mut Random, m: u64) -> Vec<u8> {
    let (method, basis) = (random.between(0, 3), random.between(0, 2));
    format!("{m} {method} {basis}\n").into_bytes()
}
