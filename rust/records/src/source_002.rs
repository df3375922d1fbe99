//! What was found on source document 002's triangles.

use pardesul::{forecast, Basis, Method, Refusal};
use reference::fraction::Fraction;
use reference::generate::file;
use reference::source_002::{exact_years, set, PRINTED};
use reference::Big;

const HEAD: &str = "\
## Source document 002

The paper prints a chain-ladder column, CLM, by calendar year, and does not give its rounding. Its
triangles (ten accident years, counts and paid) are `examples/source_002.input`. Beside the printed
column stand the unrounded paid chain ladder, and the library's RBNS + IBNR at delays below m under
method 0, basis 1; the differences are to the unrounded one.

| year | printed | unrounded | forecast | printed off by | forecast off by |
|---|---|---|---|---|---|
";

/// The section.
pub fn section() -> Result<String, Refusal> {
    let m = set().m;
    let forecast = forecast(&file(&set()), m, Method::Dcl, Basis::Estimated)?;
    let mut text = HEAD.to_string();
    let (mut printed, mut written) = (0, 0);
    let mut unrounded = Fraction::whole(Big::zero());
    for (t, exact) in (1..m).zip(exact_years()) {
        let cells = (t + 1..=m).map(|i| forecast.rbns(i, m + t - i) + forecast.ibnr(i, m + t - i));
        let year = [PRINTED[t - 1] * 10, cells.sum::<i64>() * 100];
        text += &line(&t.to_string(), year[0], &exact, year[1]);
        printed += year[0];
        written += year[1];
        unrounded = unrounded.plus(&exact);
    }
    text += &line("all", printed, &unrounded, written);
    Ok(text)
}

fn line(year: &str, printed: i64, unrounded: &Fraction, forecast: i64) -> String {
    let exact = hundredths(unrounded);
    let amounts = [printed, exact, forecast, printed - exact, forecast - exact].map(decimal);
    format!("| {year} | {} |\n", amounts.join(" | "))
}

fn hundredths(fraction: &Fraction) -> i64 {
    let half = Big::from(5_000_000i64);
    let (rounded, _) = (fraction.billionths() + half).div_rem(&Big::from(10_000_000i64));
    rounded.to_i64().expect("an amount")
}

fn decimal(hundredths: i64) -> String {
    let sign = if hundredths < 0 { "-" } else { "" };
    let amount = hundredths.unsigned_abs();
    format!("{sign}{}.{:02}", amount / 100, amount % 100)
}
