//! Delays of your own: `own_delays FOLDER METHOD BASIS FILE` reads the folder as `csv_set` does,
//! and from the file one delay a line, in billionths. Where they are delays of the set, it prints
//! each accident year's RBNS and IBNR by the delays solved here, and beside them those by yours;
//! else it says which one is off.

#[allow(dead_code)]
#[path = "csv_set.rs"]
pub mod csv_set;

use pardesul::{Basis, Forecast, Method, Refusal, TriangleSet};
use std::error::Error;
use std::io::{self, Write};
use std::path::Path;
use std::{env, fs};

fn main() -> Result<(), Box<dyn Error>> {
    let words: Vec<String> = env::args().skip(1).collect();
    let [folder, method, basis, file] = &words[..] else {
        return Err("usage: own_delays FOLDER METHOD BASIS FILE".into());
    };
    let method = Method::try_from(number(method)?)?;
    let basis = Basis::try_from(number(basis)?)?;
    let set = csv_set::read_folder(Path::new(folder))?;
    let delays = read_delays(Path::new(file))?;
    if let Some(off) = first_off(&set, &delays)? {
        return Err(format!("refused 20: {off}").into());
    }
    let table = table(&set, method, basis, &delays)?;
    Ok(io::stdout().write_all(table.as_bytes())?)
}

/// The delays of a file.
pub fn read_delays(file: &Path) -> Result<Vec<i64>, String> {
    let text = fs::read_to_string(file).map_err(|error| format!("{}: {error}", file.display()))?;
    let delay = |(line, at): (&str, usize)| {
        let delay = line.trim().parse();
        delay.map_err(|error| format!("{}, line {at}: {error}", file.display()))
    };
    text.lines().zip(1..).map(delay).collect()
}

/// What is wrong with delays that are refused with 20: their number, or the first one that is off.
pub fn first_off(set: &TriangleSet, delays: &[i64]) -> Result<Option<String>, Refusal> {
    match set.check_delays(delays) {
        Ok(_) => return Ok(None),
        Err(refusal) if refusal.number() != 20 => return Err(refusal),
        Err(_) => {}
    }
    let (m, shares) = (set.m, set.shares()?);
    if delays.len() != m {
        return Ok(Some(format!("{} of them, and not {m}", delays.len())));
    }
    let outside = |delay: &i64| !(-8_000_000_000..=8_000_000_000).contains(delay);
    if let Some(l) = delays.iter().position(outside) {
        return Ok(Some(format!("delay {l} is {}, out of range", delays[l])));
    }
    let of = |share: i64, delay: i64| i128::from(share) * i128::from(delay);
    let off = (0..m).find_map(|l| {
        let sum: i128 = (0..=l).map(|k| of(shares.b[k], delays[l - k])).sum();
        let distance = of(shares.q[l], 1_000_000_000) - sum;
        // What the delay would have to be behind those before it.
        let exact = delays[l] as f64 + distance as f64 / shares.b[0] as f64;
        let is_off = 2 * distance.abs() > i128::from(shares.b[0]);
        is_off.then(|| format!("delay {l} is {}, and {exact:.1} is due", delays[l]))
    });
    Ok(off)
}

/// A line for each accident year and one for all: RBNS and IBNR by the delays solved here, dashes
/// where those are out of range, and by the ones that are given.
pub fn table(
    set: &TriangleSet,
    method: Method,
    basis: Basis,
    delays: &[i64],
) -> Result<String, Refusal> {
    let yours = set.forecast_with_delays(method, basis, delays)?;
    let solved = set.forecast(method, basis).ok();
    let line = |year: &str, years: &[usize]| {
        let ours = solved.as_ref().map(|solved| totals(solved, set.m, years));
        let ours = ours.map_or(["-".to_string(), "-".to_string()], |amounts| {
            amounts.map(|amount| amount.to_string())
        });
        let yours = totals(&yours, set.m, years).map(|amount| amount.to_string());
        let [a, b, c, d] = [&ours[0], &ours[1], &yours[0], &yours[1]];
        format!("{year:>4}{a:>16}{b:>16}{c:>16}{d:>16}\n")
    };
    let all: Vec<usize> = (1..=set.m).collect();
    let lines: String = all.iter().map(|&i| line(&i.to_string(), &[i])).collect();
    let heading = format!(
        "YEAR{:>16}{:>16}{:>16}{:>16}\n",
        "RBNS", "IBNR", "RBNS, yours", "IBNR, yours"
    );
    Ok(heading + &lines + &line("ALL", &all))
}

/// RBNS and IBNR of these accident years.
fn totals(forecast: &Forecast, m: usize, years: &[usize]) -> [i64; 2] {
    let cells = years
        .iter()
        .flat_map(|&i| (0..=2 * m - 2).map(move |j| (i, j)));
    cells.fold([0, 0], |[rbns, ibnr], (i, j)| {
        [rbns + forecast.rbns(i, j), ibnr + forecast.ibnr(i, j)]
    })
}

fn number(word: &str) -> Result<u64, String> {
    word.parse().map_err(|error| format!("{word}: {error}"))
}
