//! The back-test.

use super::{arguments, both_ways, fixed, method_and_basis, LentLine};
use crate::difference::{same, Difference};
use crate::memory::Memory;
use crate::Counts;
use pardesul::{calls, BackTest};
use reference::generate::Case;

pub fn compare(seed: u64, case: &Case, counts: &mut Counts) -> Result<bool, Difference> {
    let text = || arguments(seed, case);
    let (file, m, c) = (&case.file, case.m as usize, case.cut as usize);
    let wanted = counts.answer(seed, || {
        reference::back_test(file, case.m, case.cut, case.method, case.basis)
    });

    let mut memory = Memory::<u64>::new(seed, &[4]);
    let mut line = LentLine::new(seed);
    let [sums] = memory.lists().map(fixed);
    let refusal = calls::back_test(file, m, case.method, case.basis, c, line.lent(), sums);
    line.beside("back-test", refusal, &wanted, |test| test.line, text)?;
    let list = wanted
        .as_ref()
        .ok()
        .map(|test| [test.cells, test.cellwise, test.yearwise, test.overall]);
    let lists = list.as_ref().map(|list| [&list[..]]);
    memory.holds("back-test", lists.as_ref().map(|lists| &lists[..]), text)?;

    let Some((method, basis)) = method_and_basis(seed, case)? else {
        return Ok(refusal == 0);
    };
    let wanted = wanted.map(|wanted| BackTest {
        line: wanted.line,
        cells: wanted.cells,
        cellwise: wanted.cellwise,
        yearwise: wanted.yearwise,
        overall: wanted.overall,
    });
    let ways = both_ways(
        case,
        |file, m| pardesul::back_test(file, m, method, basis, c),
        |set| set.back_test(method, basis, c),
    );
    for (way, found) in ways {
        same(&format!("back-test {way}"), &found, &wanted, text)?;
    }
    Ok(refusal == 0)
}
