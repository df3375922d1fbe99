//! The closing page.

use super::both_ways;
use crate::difference::{hexadecimal, same, Difference};
use crate::memory::Memory;
use crate::Counts;
use pardesul::{calls, Basis, Method};
use reference::generate::{Case, Random};
use reference::page::page_length;
use std::collections::BTreeSet;

/// Every method and basis, and what is counted of the pages that it accepts.
const PAIRS: [(Method, Basis, &str); 6] = [
    (Method::Dcl, Basis::Actual, "page of method 0, basis 0"),
    (Method::Dcl, Basis::Estimated, "page of method 0, basis 1"),
    (Method::Bdcl, Basis::Actual, "page of method 1, basis 0"),
    (Method::Bdcl, Basis::Estimated, "page of method 1, basis 1"),
    (Method::Idcl, Basis::Actual, "page of method 2, basis 0"),
    (Method::Idcl, Basis::Estimated, "page of method 2, basis 1"),
];

/// What is counted of cases that met a refusal: the refusal n at place n - 1.
const REFUSED: [&str; 15] = [
    "page refused 1",
    "page refused 2",
    "page refused 3",
    "page refused 4",
    "page refused 5",
    "page refused 6",
    "page refused 7",
    "page refused 8",
    "page refused 9",
    "page refused 10",
    "page refused 11",
    "page refused 12",
    "page refused 13",
    "page refused 14",
    "page refused 15",
];

/// m, method and basis.
type Settings = [u64; 3];

/// A page, or the number of its refusal.
type Answer = Result<String, u64>;

/// The page under every method and basis, and under the case's own where there are no such: each
/// time in bytes that are too few and in bytes that are enough, as the safe crate's always are.
pub fn compare(seed: u64, case: &Case, counts: &mut Counts) -> Result<(), Difference> {
    let mut random = Random::new(seed ^ (1 << 43));
    let mut refusals = BTreeSet::new();
    let mut both_lengths = |settings: Settings, counts: &mut Counts| {
        let needed = page_length(case.m.clamp(1, 21) as usize);
        let short = random.pick(&[needed - 1, needed - 1, needed / 2, 1, 0]);
        let enough = needed + random.pick(&[0, 0, 1, 100, 4_096]);
        let refused = compare_file(seed, &case.file, settings, short, counts)?.err();
        let answer = compare_file(seed, &case.file, settings, enough, counts)?;
        refusals.extend([refused, answer.as_ref().err().copied()]);
        Ok(answer)
    };
    for (method, basis, name) in PAIRS {
        let settings = [case.m, method as u64, basis as u64];
        let wanted = both_lengths(settings, counts)?;
        let ways = both_ways(
            case,
            |file, m| pardesul::closing_page(file, m, method, basis),
            |set| set.closing_page(method, basis),
        );
        for (way, found) in ways {
            let text = || arguments(seed, &case.file, settings);
            same(&format!("page {way}"), &found, &wanted, text)?;
        }
        counts.count(name, wanted.is_ok());
    }
    if case.method > 2 || case.basis > 1 {
        both_lengths([case.m, case.method, case.basis], counts)?.ok();
    }
    for refusal in refusals.into_iter().flatten() {
        counts.count(REFUSED[refusal as usize - 1], true);
    }
    Ok(())
}

/// The page of any file in so many bytes; says the answer.
pub fn compare_file(
    seed: u64,
    file: &[u8],
    settings: Settings,
    room: usize,
    counts: &mut Counts,
) -> Result<Answer, Difference> {
    let [m, method, basis] = settings;
    let text = || format!("page of {room} bytes, {}", arguments(seed, file, settings));
    let wanted = counts.answer(seed, || {
        reference::closing_page(file, m, method, basis, room)
    });

    let mut memory = Memory::new(seed, &[room]);
    let [page] = memory.lists();
    let refusal = calls::closing_page(file, m as usize, method, basis, page);
    same(
        "page, refusal",
        Some(refusal).filter(|&n| n != 0),
        wanted.as_ref().err().copied(),
        text,
    )?;
    let list = wanted.as_ref().ok().map(|page| [page.as_bytes()]);
    memory.holds("page", list.as_ref().map(|list| &list[..]), text)?;
    Ok(wanted)
}

/// The arguments; the file in hexadecimal.
fn arguments(seed: u64, file: &[u8], [m, method, basis]: Settings) -> String {
    let file = hexadecimal(file);
    format!("seed {seed}, m {m}, method {method}, basis {basis}, file {file}")
}
