//! What is counted of a comparison.

use reference::generate::{shape_of, Shape};
use reference::halves::{add, during, Halves};
use std::collections::BTreeMap;

#[derive(Default)]
pub struct Counts {
    /// How many cases each call accepted; of accepted files, how many were on each line; of the
    /// writer, how many cases met each refusal; of the answers to inputs, how many were each of the
    /// texts; of closing pages, how many cases each method and basis accepted and each refusal met;
    /// of windows, how many of each span were accepted and each refusal met; of given delays, how
    /// many cases accepted some of each kind and met each refusal; of journals, how many were made
    /// in each way and each refusal met.
    pub accepted: BTreeMap<&'static str, u64>,
    /// The halves that the calculation met in each answer that is no refusal, by the shape of the
    /// seed's set.
    pub halves: BTreeMap<Shape, Halves>,
}

impl Counts {
    /// Counts a case where it is one of these.
    pub fn count(&mut self, name: &'static str, is_one: bool) {
        *self.accepted.entry(name).or_default() += u64::from(is_one);
    }

    /// The calculation's answer, whose halves are counted unless it refuses.
    pub fn answer<T>(
        &mut self,
        seed: u64,
        calculation: impl FnOnce() -> Result<T, u64>,
    ) -> Result<T, u64> {
        let (answer, halves) = during(calculation);
        if answer.is_ok() {
            self.met(seed, halves);
        }
        answer
    }

    /// Counts the halves of an answer.
    pub fn met(&mut self, seed: u64, halves: Halves) {
        add(self.halves.entry(shape_of(seed)).or_default(), halves);
    }
}
