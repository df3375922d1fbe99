//! The forecast.

use super::{arguments, both_ways, fixed, method_and_basis, LentLine};
use crate::difference::{same, Difference};
use crate::memory::Memory;
use crate::Counts;
use pardesul::calls;
use reference::forecast::entry_count;
use reference::generate::Case;

pub fn compare(seed: u64, case: &Case, counts: &mut Counts) -> Result<bool, Difference> {
    let text = || arguments(seed, case);
    let (file, m, room) = (&case.file, case.m as usize, case.out_len);
    let wanted = counts.answer(seed, || {
        reference::forecast(file, case.m, case.method, case.basis, room)
    });

    let mut memory = Memory::new(seed, &[room, 20]);
    let mut line = LentLine::new(seed);
    let [out, leftovers] = memory.lists();
    let refusal = calls::forecast(
        file,
        m,
        case.method,
        case.basis,
        line.lent(),
        out,
        fixed(leftovers),
    );
    line.beside("forecast", refusal, &wanted, |of| of.line, text)?;
    let lists = wanted
        .as_ref()
        .ok()
        .map(|of| [&of.entries[..], &of.leftovers]);
    memory.holds("forecast", lists.as_ref().map(|lists| &lists[..]), text)?;

    let Some((method, basis)) = method_and_basis(seed, case)? else {
        return Ok(refusal == 0);
    };
    // The output of the safe crate is always long enough.
    let most = entry_count(20);
    let wanted = reference::forecast(file, case.m, case.method, case.basis, most);
    let wanted = wanted.map(|wanted| {
        let tally = reference::Tally::of_entries(&wanted.entries, m);
        let leftovers = wanted.leftovers[..m].to_vec();
        let tallied = (tally.rbns, tally.ibnr);
        (wanted.line, wanted.entries, leftovers, tallied)
    });
    let ways = both_ways(
        case,
        |file, m| pardesul::forecast(file, m, method, basis),
        |set| set.forecast(method, basis),
    );
    for (way, found) in ways {
        let found = found.map(|found| {
            let tally = found.tally();
            let entries = found.entries().to_vec();
            let tallied = (tally.rbns, tally.ibnr);
            (found.line, entries, found.leftovers, tallied)
        });
        same(&format!("forecast {way}"), &found, &wanted, text)?;
    }
    Ok(refusal == 0)
}
