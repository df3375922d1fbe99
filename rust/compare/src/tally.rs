//! The calendar-year tally.

use crate::difference::{same, Difference};
use crate::Counts;
use reference::generate::Random;

/// Cells of every size added to a tally one after the other, some in years outside 1 to 38 and some
/// past 64 bits.
pub fn of_case(seed: u64, _: &mut Counts) -> Result<(), Difference> {
    let mut random = Random::new(seed);
    let mut wanted = reference::Tally::zero();
    let mut found = pardesul::Tally::zero();
    let mut cells = Vec::new();
    for _ in 0..random.between(1, 60) {
        let year = random.between(-1, 40);
        let (rbns, ibnr) = (amount(&mut random), amount(&mut random));
        cells.push((year, rbns, ibnr));
        wanted = wanted.add(year, rbns, ibnr);
        found = found.add(year as u64, rbns, ibnr);
        let text = || format!("seed {seed}, cells {cells:?}");
        same(
            "tally",
            (found.rbns, found.ibnr),
            (wanted.rbns, wanted.ibnr),
            text,
        )?;
    }
    Ok(())
}

/// An amount of 1 to 64 bits, often at an end of its range.
fn amount(random: &mut Random) -> i64 {
    match random.below(8) {
        0 => i64::MIN,
        1 => i64::MAX,
        _ => random.number() as i64 >> random.below(64),
    }
}
