//! Memory that is lent to a call.

use crate::difference::{same_list, Difference};
use reference::generate::Random;
use std::fmt::Debug;

/// Words before, between and behind the lists.
const GAP: usize = 4;

/// A word of lent memory.
pub trait Word: Copy {
    /// What two words are compared by.
    type Bits: PartialEq + Debug;

    /// The word of these bits, as many of them as it has.
    fn of(number: u64) -> Self;

    fn bits(self) -> Self::Bits;
}

impl Word for i64 {
    type Bits = i64;

    fn of(number: u64) -> i64 {
        number as i64
    }

    fn bits(self) -> i64 {
        self
    }
}

impl Word for u64 {
    type Bits = u64;

    fn of(number: u64) -> u64 {
        number
    }

    fn bits(self) -> u64 {
        self
    }
}

impl Word for u8 {
    type Bits = u8;

    fn of(number: u64) -> u8 {
        number as u8
    }

    fn bits(self) -> u8 {
        self
    }
}

impl Word for f64 {
    type Bits = u64;

    fn of(number: u64) -> f64 {
        f64::from_bits(number)
    }

    fn bits(self) -> u64 {
        self.to_bits()
    }
}

/// Lists of any words in one memory.
pub struct Memory<W> {
    lengths: Vec<usize>,
    before: Vec<W>,
    now: Vec<W>,
}

impl<W: Word> Memory<W> {
    /// Lists of these lengths.
    pub fn new(seed: u64, lengths: &[usize]) -> Memory<W> {
        let mut random = Random::new(seed);
        let words = GAP + lengths.iter().map(|length| length + GAP).sum::<usize>();
        let before: Vec<W> = (0..words).map(|_| W::of(random.number())).collect();
        Memory {
            lengths: lengths.to_vec(),
            now: before.clone(),
            before,
        }
    }

    /// The lists, to be lent.
    pub fn lists<const N: usize>(&mut self) -> [&mut [W]; N] {
        let mut rest = &mut self.now[..];
        let mut lists = Vec::new();
        for &length in &self.lengths {
            let (list, behind) = rest[GAP..].split_at_mut(length);
            lists.push(list);
            rest = behind;
        }
        lists
            .try_into()
            .unwrap_or_else(|_| panic!("as many lists as lengths"))
    }

    /// Whether the memory is as it was, but for what an accepted call hands back at the front of
    /// each list.
    pub fn holds(
        &self,
        what: &str,
        handed_back: Option<&[&[W]]>,
        case: impl Fn() -> String,
    ) -> Result<(), Difference> {
        let mut wanted = self.before.clone();
        let mut at = GAP;
        for (list, length) in handed_back.unwrap_or(&[]).iter().zip(&self.lengths) {
            wanted[at..at + list.len()].copy_from_slice(list);
            at += length + GAP;
        }
        let bits = |words: &[W]| words.iter().map(|word| word.bits()).collect::<Vec<_>>();
        same_list(
            &format!("{what}, memory"),
            &bits(&self.now),
            &bits(&wanted),
            case,
        )
    }
}

#[cfg(test)]
mod tests {
    use super::Memory;

    fn differs(memory: &Memory<i64>, handed_back: Option<&[&[i64]]>) -> bool {
        memory.holds("test", handed_back, String::new).is_err()
    }

    #[test]
    fn lists_are_lent_and_looked_at() {
        let mut memory = Memory::new(1, &[3, 2]);
        assert!(!differs(&memory, None));
        let [first, second] = memory.lists();
        first[..2].copy_from_slice(&[7, 8]);
        second[0] = 9;
        assert!(!differs(&memory, Some(&[&[7, 8], &[9]])));
        assert!(differs(&memory, None));
        assert!(differs(&memory, Some(&[&[7, 8], &[8]])));
    }

    #[test]
    fn words_around_the_lists_have_to_stay() {
        for at in [3, 7, 10, 13, 16] {
            let mut memory = Memory::<i64>::new(2, &[3, 2]);
            memory.now[at] ^= 1;
            assert!(differs(&memory, None), "word {at}");
        }
    }

    /// A zero with another sign is another word.
    #[test]
    fn floats_are_compared_by_their_bits() {
        let mut memory = Memory::<f64>::new(3, &[1]);
        let [list] = memory.lists();
        list[0] = -0.0;
        assert!(memory.holds("test", Some(&[&[0.0]]), String::new).is_err());
        assert!(memory.holds("test", Some(&[&[-0.0]]), String::new).is_ok());
    }
}
