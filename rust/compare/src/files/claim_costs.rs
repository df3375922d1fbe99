//! The claim costs, their floats by their bits.

use super::{arguments, both_ways, fixed, LentLine};
use crate::difference::{same, Difference};
use crate::memory::Memory;
use crate::Counts;
use pardesul::calls;
use reference::generate::Case;

/// The line, mu, the factors and the inflations, of an inflation its kind and its ratio, 0 where
/// there is none.
type Bits = (u64, u64, Vec<u64>, Vec<(u8, u64)>);

pub fn compare(seed: u64, case: &Case, counts: &mut Counts) -> Result<bool, Difference> {
    let text = || arguments(seed, case);
    let (file, m) = (&case.file, case.m as usize);
    let wanted = counts.answer(seed, || reference::claim_costs(file, case.m));

    let mut floats = Memory::new(seed, &[1, 20, 20]);
    let mut bytes = Memory::new(seed, &[20]);
    let mut line = LentLine::new(seed);
    let [mu, factors, ratios] = floats.lists();
    let [kinds] = bytes.lists().map(fixed);
    let refusal = calls::claim_costs(
        file,
        m,
        line.lent(),
        &mut mu[0],
        fixed(factors),
        kinds,
        fixed(ratios),
    );
    line.beside("claim costs", refusal, &wanted, |of| of.line, text)?;
    match &wanted {
        Ok(wanted) => {
            let years = wanted.inflations.map(of_reference);
            let ratios = years.map(|(_, ratio)| f64::from_bits(ratio));
            let lists: [&[f64]; 3] = [&[wanted.mu], &wanted.factors, &ratios];
            floats.holds("claim costs, floats", Some(&lists), text)?;
            let kinds = years.map(|(kind, _)| kind);
            bytes.holds("claim costs, kinds", Some(&[&kinds]), text)?;
        }
        Err(_) => {
            floats.holds("claim costs, floats", None, text)?;
            bytes.holds("claim costs, kinds", None, text)?;
        }
    }

    let wanted = wanted.map(|wanted| -> Bits {
        let inflations = wanted.inflations[..m].iter().copied().map(of_reference);
        (
            wanted.line,
            wanted.mu.to_bits(),
            bits(&wanted.factors[..m - 1]),
            inflations.collect(),
        )
    });
    for (way, found) in both_ways(case, pardesul::claim_costs, |set| set.claim_costs()) {
        let found = found.map(|found| -> Bits {
            let inflations = found.inflations.iter().copied().map(of_library);
            (
                found.line,
                found.mu.to_bits(),
                bits(&found.factors),
                inflations.collect(),
            )
        });
        same(&format!("claim costs {way}"), &found, &wanted, text)?;
    }
    Ok(refusal == 0)
}

fn bits(list: &[f64]) -> Vec<u64> {
    list.iter().map(|float| float.to_bits()).collect()
}

fn of_reference(inflation: reference::Inflation) -> (u8, u64) {
    match inflation {
        reference::Inflation::BaseYear => (0, 0),
        reference::Inflation::NoPaymentsYet => (1, 0),
        reference::Inflation::Ratio(ratio) => (2, ratio.to_bits()),
    }
}

fn of_library(inflation: pardesul::Inflation) -> (u8, u64) {
    match inflation {
        pardesul::Inflation::BaseYear => (0, 0),
        pardesul::Inflation::NoPaymentsYet => (1, 0),
        pardesul::Inflation::Ratio(ratio) => (2, ratio.to_bits()),
    }
}
