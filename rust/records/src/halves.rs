//! The halves that the generated sets meet.

use reference::generate::{halves_met, Met, Span};
use reference::halves::{add, texts, KINDS};

/// As many cases as the tests of `rust/compare` put to the library.
const CASES: u64 = 3_000;

const SPANS: usize = Span::ALL.len();

/// The section.
pub fn section() -> String {
    let names = KINDS.map(|(name, _)| name).join(" | ");
    let mut text = format!(
        "\
## Halves met

How many quotients stood halfway between two whole numbers in the forecasts of the first {CASES}
cases of `rust/compare`, and in what is due before both ends of {SPANS} windows of each, by what is
rounded and how the set is made (`rust/reference/src/generate`): those with an even whole part,
which round to it, + those with an odd one, which round away from zero. Refused forecasts and
windows are not counted. Shares, ultimates and weights are never below zero.

| sets | forecasts | {names} |
|---|---|{}
",
        "---|".repeat(KINDS.len())
    );
    let mut all = Met::default();
    for (shape, met) in halves_met(0..CASES) {
        text += &row(shape.name(), &met);
        all.forecasts += met.forecasts;
        add(&mut all.halves, met.halves);
    }
    text + &row("all", &all)
}

fn row(name: &str, met: &Met) -> String {
    let counts = texts(&met.halves).join(" | ");
    format!("| {name} | {} | {counts} |\n", met.forecasts)
}
