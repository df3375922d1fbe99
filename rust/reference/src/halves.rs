//! The halves that r met, so that it can be said which ones stood behind an answer.

use std::cell::RefCell;
use std::collections::BTreeMap;

/// What r rounds.
#[derive(Clone, Copy, Debug, PartialEq, Eq, PartialOrd, Ord)]
pub enum Quotient {
    Share,
    Ultimate,
    Weight,
    Delay,
    RowBase,
    Cell,
    Due,
}

/// A quotient that stood on a half, and whether it was below zero.
#[derive(Clone, Copy, Debug, PartialEq, Eq, PartialOrd, Ord)]
pub struct Kind {
    pub quotient: Quotient,
    pub is_negative: bool,
}

/// The kinds that an accepted answer can have, by name: those of a forecast, then those of what is
/// due before a date. Counts and payments are not below zero, nor are, by question 13, incurred
/// sums and shares: so no share, ultimate or weight is. Of row bases only IDCL's can be.
pub const KINDS: [(&str, Kind); 11] = [
    ("share", at(Quotient::Share, false)),
    ("ultimate", at(Quotient::Ultimate, false)),
    ("weight", at(Quotient::Weight, false)),
    ("delay", at(Quotient::Delay, false)),
    ("delay < 0", at(Quotient::Delay, true)),
    ("row base", at(Quotient::RowBase, false)),
    ("row base < 0", at(Quotient::RowBase, true)),
    ("cell", at(Quotient::Cell, false)),
    ("cell < 0", at(Quotient::Cell, true)),
    ("due", at(Quotient::Due, false)),
    ("due < 0", at(Quotient::Due, true)),
];

/// How many of the kinds are those of a forecast.
pub const OF_FORECASTS: usize = 9;

const fn at(quotient: Quotient, is_negative: bool) -> Kind {
    Kind {
        quotient,
        is_negative,
    }
}

/// How many halves of each kind: those whose whole part is even, which round to it, and those whose
/// whole part is odd, which round away from zero.
pub type Halves = BTreeMap<Kind, [u64; 2]>;

thread_local! {
    static MET: RefCell<Halves> = const { RefCell::new(Halves::new()) };
}

/// Counts a half.
pub fn count(quotient: Quotient, is_negative: bool, whole_part_is_even: bool) {
    MET.with_borrow_mut(|met| {
        let counts = met.entry(at(quotient, is_negative)).or_default();
        counts[usize::from(!whole_part_is_even)] += 1;
    });
}

/// What a calculation gives, and the halves that it met.
pub fn during<T>(calculation: impl FnOnce() -> T) -> (T, Halves) {
    let before = MET.take();
    let found = calculation();
    (found, MET.replace(before))
}

/// Adds halves to those that were met elsewhere.
pub fn add(halves: &mut Halves, more: Halves) {
    for (kind, counts) in more {
        let [even, odd] = halves.entry(kind).or_default();
        *even += counts[0];
        *odd += counts[1];
    }
}

/// How many of each kind, in the order of [`KINDS`]: even + odd.
pub fn texts(halves: &Halves) -> [String; 11] {
    KINDS.map(|(_, kind)| {
        let [even, odd] = halves.get(&kind).copied().unwrap_or_default();
        format!("{even} + {odd}")
    })
}
