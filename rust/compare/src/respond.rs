//! The answer of `closing` to its whole input.

use crate::difference::{hexadecimal, same, same_list, Difference};
use crate::memory::Memory;
use crate::Counts;
use pardesul::calls;
use reference::closing;
use reference::generate::{case, closing_input, Random};
use reference::halves::during;

/// What is counted of the texts: the refusal n at place n.
const REFUSED: [&str; 15] = [
    "not refused",
    "refused 1",
    "refused 2",
    "refused 3",
    "refused 4",
    "refused 5",
    "refused 6",
    "refused 7",
    "refused 8",
    "refused 9",
    "refused 10",
    "refused 11",
    "refused 12",
    "refused 13",
    "refused 14",
];

/// What is counted of accepted inputs: method and basis at place 2 × method + basis.
const TEXTS: [&str; 6] = [
    "text of method 0, basis 0",
    "text of method 0, basis 1",
    "text of method 1, basis 0",
    "text of method 1, basis 1",
    "text of method 2, basis 0",
    "text of method 2, basis 1",
];

/// The seed's input.
pub fn of_case(seed: u64, counts: &mut Counts) -> Result<(), Difference> {
    let refusal = compare(seed, &closing_input(seed), counts)?;
    if refusal == 0 {
        let case = case(seed);
        counts.count(TEXTS[(2 * case.method + case.basis) as usize], true);
    }
    Ok(())
}

/// The seed's input with bytes changed, dropped or added at random, mostly in its first line.
pub fn of_damaged(seed: u64, counts: &mut Counts) -> Result<(), Difference> {
    let mut random = Random::new(seed ^ (1 << 41));
    let mut input = closing_input(seed);
    for _ in 0..random.between(1, 2) {
        let end = if random.one_in(4) {
            input.len()
        } else {
            input.len().min(8)
        };
        let (at, any) = (random.below(end + 1), random.number() as u8);
        let byte = random.pick(&[
            b'0', b'1', b'2', b'3', b'9', b' ', b'\n', b'\r', b'/', b':', b'a', 0, 255, any,
        ]);
        match random.below(8) {
            0 | 1 => input.insert(at, byte),
            2 => input.truncate(at),
            3 | 4 if at < input.len() => {
                input.remove(at);
            }
            _ if at < input.len() => input[at] = byte,
            _ => {}
        }
    }
    compare(seed, &input, counts).map(|_| ())
}

/// The whole text, or nothing where the output is too short for it; says the refusal number.
pub fn compare(seed: u64, input: &[u8], counts: &mut Counts) -> Result<usize, Difference> {
    let text = || arguments(seed, input);
    let (wanted, halves) = during(|| closing(input));
    let room = any_room(&mut Random::new(seed ^ (1 << 42)), wanted.len());

    let mut memory = Memory::new(seed, &[room]);
    let [out] = memory.lists();
    let length = calls::respond(input, out);
    let fits = wanted.len() <= room;
    let expected = if fits { wanted.len() } else { 0 };
    same("respond, length", length, expected, text)?;
    let list = [&wanted[..]];
    memory.holds("respond", fits.then_some(&list[..]), text)?;
    same_list(
        "pardesul::respond",
        &pardesul::respond(input),
        &wanted,
        text,
    )?;

    let refusal = refusal(&wanted);
    counts.count(REFUSED[refusal], true);
    counts.count("too short", !fits);
    if refusal == 0 {
        counts.met(seed, halves);
    }
    Ok(refusal)
}

/// The number of a refusal's text, 0 of a forecast's text.
fn refusal(text: &[u8]) -> usize {
    (1..REFUSED.len())
        .find(|&n| text == format!("refused {n}\n").as_bytes())
        .unwrap_or(0)
}

/// An output that is long enough, and one time in four one that is not.
fn any_room(random: &mut Random, needed: usize) -> usize {
    if random.one_in(4) {
        random.pick(&[needed - 1, needed / 2, 1, 0])
    } else {
        needed + random.pick(&[0, 1, 100, 4_096])
    }
}

/// The arguments; the input in hexadecimal.
fn arguments(seed: u64, input: &[u8]) -> String {
    format!("seed {seed}, input {}", hexadecimal(input))
}
