//! The delays.

use super::{arguments, both_ways, fixed, LentLine};
use crate::difference::{same, Difference};
use crate::memory::Memory;
use crate::Counts;
use pardesul::{calls, Delays};
use reference::generate::Case;

pub fn compare(seed: u64, case: &Case, counts: &mut Counts) -> Result<bool, Difference> {
    let text = || arguments(seed, case);
    let (file, m) = (&case.file, case.m as usize);
    let wanted = counts.answer(seed, || reference::delays(file, case.m));

    let mut memory = Memory::new(seed, &[20]);
    let mut line = LentLine::new(seed);
    let [p] = memory.lists().map(fixed);
    let refusal = calls::delays(file, m, line.lent(), p);
    line.beside("delays", refusal, &wanted, |of| of.line, text)?;
    let list = wanted.as_ref().ok().map(|of| [&of.p[..]]);
    memory.holds("delays", list.as_ref().map(|list| &list[..]), text)?;

    let wanted = wanted.map(|of| Delays {
        line: of.line,
        p: of.p[..m].to_vec(),
    });
    for (way, found) in both_ways(case, pardesul::delays, |set| set.delays()) {
        same(&format!("delays {way}"), &found, &wanted, text)?;
    }
    Ok(refusal == 0)
}
