//! Shares and ultimates.

use super::{arguments, both_ways, fixed, LentLine};
use crate::difference::{same, Difference};
use crate::memory::Memory;
use crate::Counts;
use pardesul::{calls, Shares};
use reference::generate::Case;

pub fn compare(seed: u64, case: &Case, counts: &mut Counts) -> Result<bool, Difference> {
    let text = || arguments(seed, case);
    let (file, m) = (&case.file, case.m as usize);
    let wanted = counts.answer(seed, || reference::shares(file, case.m));

    let mut memory = Memory::new(seed, &[20; 5]);
    let mut line = LentLine::new(seed);
    let [b, n, q, g, u] = memory.lists().map(fixed);
    let refusal = calls::shares(file, m, line.lent(), b, n, q, g, u);
    line.beside("shares", refusal, &wanted, |of| of.line, text)?;
    let lists = wanted
        .as_ref()
        .ok()
        .map(|of| [&of.b[..], &of.n, &of.q, &of.g, &of.u]);
    memory.holds("shares", lists.as_ref().map(|lists| &lists[..]), text)?;

    let first = |list: &[i64; 20]| list[..m].to_vec();
    let wanted = wanted.map(|of| Shares {
        line: of.line,
        b: first(&of.b),
        n: first(&of.n),
        q: first(&of.q),
        g: first(&of.g),
        u: first(&of.u),
    });
    for (way, found) in both_ways(case, pardesul::shares, |set| set.shares()) {
        same(&format!("shares {way}"), &found, &wanted, text)?;
    }
    Ok(refusal == 0)
}
