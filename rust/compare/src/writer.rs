//! The writer.

use crate::difference::{same, same_list, Difference};
use crate::Counts;
use pardesul::{calls, Triangle, TriangleSet};
use reference::generate::{writer_case, Random, WriterCase};
use reference::records::file_length;
use reference::write_set;

/// Bytes before and behind the output.
const AROUND: usize = 16;

/// What is counted of refusals.
const REFUSED: [(u64, &str); 4] = [
    (1, "write refused 1"),
    (3, "write refused 3"),
    (5, "write refused 5"),
    (7, "write refused 7"),
];

/// The set of the seed: the refusal, every byte of the output and around it, and the file that the
/// safe crate makes, each on the set's line.
pub fn of_case(seed: u64, counts: &mut Counts) -> Result<(), Difference> {
    let case = writer_case(seed);
    let text = || arguments(seed, &case);
    let m = case.m as usize;
    let mut random = Random::new(seed);
    let before: Vec<u8> = (0..case.out_len + 2 * AROUND)
        .map(|_| random.number() as u8)
        .collect();
    let lent = AROUND..AROUND + case.out_len;

    let mut memory = before.clone();
    let refusal = calls::write_set(
        m,
        case.line,
        case.has_incurred,
        &case.counts,
        &case.paid,
        &case.incurred,
        &mut memory[lent.clone()],
    );
    let mut wanted = before;
    let answer = write_set(
        case.m,
        case.line,
        case.has_incurred,
        &case.counts,
        &case.paid,
        &case.incurred,
        &mut wanted[lent],
    );
    same("writer, refusal", refusal, answer.err().unwrap_or(0), text)?;
    same_list("writer, memory", &memory, &wanted, text)?;

    let found = natural(&case).to_file().map_err(|refusal| refusal.number());
    same("TriangleSet::to_file", found, file(&case), text)?;
    counts.count("write", refusal == 0);
    for (number, name) in REFUSED {
        counts.count(name, refusal == number);
    }
    Ok(())
}

/// The file of the case's set, whatever room the case has for it.
fn file(case: &WriterCase) -> Result<Vec<u8>, u64> {
    let length = match case.m {
        m @ 2..=20 => file_length(m as usize, case.has_incurred),
        _ => 0,
    };
    let mut out = vec![0; length];
    let (counts, paid, incurred) = (&case.counts, &case.paid, &case.incurred);
    let (m, line, has_incurred) = (case.m, case.line, case.has_incurred);
    write_set(m, line, has_incurred, counts, paid, incurred, &mut out)?;
    Ok(out)
}

fn natural(case: &WriterCase) -> TriangleSet {
    TriangleSet {
        m: case.m as usize,
        line: case.line,
        counts: Triangle::new(case.counts),
        paid: Triangle::new(case.paid),
        incurred: case.has_incurred.then(|| Triangle::new(case.incurred)),
    }
}

fn arguments(seed: u64, case: &WriterCase) -> String {
    format!("seed {seed}, {case:?}")
}
