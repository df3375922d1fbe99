//! 01, Calendar years and the program.

use crate::big::Big;
use crate::forecast::{entry, entry_count, forecast};
use crate::records::Refusal;

/// RBNS and IBNR of calendar years 1 to 38, year t at place t - 1.
#[derive(Clone, Debug, PartialEq, Eq)]
pub struct Tally {
    pub rbns: [i64; 38],
    pub ibnr: [i64; 38],
}

impl Tally {
    pub fn zero() -> Tally {
        Tally {
            rbns: [0; 38],
            ibnr: [0; 38],
        }
    }

    /// The tally with a cell added; unchanged for a t that is not 1 to 38, or where one of the two
    /// sums would not fit an i64.
    pub fn add(mut self, t: i64, rbns: i64, ibnr: i64) -> Tally {
        if !(1..=38).contains(&t) {
            return self;
        }
        let at = (t - 1) as usize;
        let next_rbns = Big::from(self.rbns[at]) + Big::from(rbns);
        let next_ibnr = Big::from(self.ibnr[at]) + Big::from(ibnr);
        if let (Some(rbns), Some(ibnr)) = (next_rbns.to_i64(), next_ibnr.to_i64()) {
            self.rbns[at] = rbns;
            self.ibnr[at] = ibnr;
        }
        self
    }

    /// The tally of a forecast's entries: cell (i,j) is paid in calendar year i + j - m.
    pub fn of_entries(entries: &[i64], m: usize) -> Tally {
        let mut tally = Tally::zero();
        for i in 1..=m {
            for j in m - i + 1..=2 * m - 2 {
                let at = entry(m, i, j);
                tally = tally.add((i + j - m) as i64, entries[at], entries[at + 1]);
            }
        }
        tally
    }
}

/// All that `closing` prints for this standard input.
pub fn closing(input: &[u8]) -> Vec<u8> {
    match closing_lines(input) {
        Ok(lines) => lines.into_bytes(),
        Err(refusal) => format!("refused {refusal}\n").into_bytes(),
    }
}

fn closing_lines(input: &[u8]) -> Result<String, Refusal> {
    let (line, file) = first_line(input).ok_or(1u64)?;
    let [m, method, basis] = fields(line).ok_or(1u64)?;
    let forecast = forecast(file, m, method, basis, entry_count(20))?;
    let m = m as usize;
    let tally = Tally::of_entries(&forecast.entries, m);
    let years = 2 * m - 2;
    let mut lines = String::new();
    for t in 1..=years {
        let rbns = Big::from(tally.rbns[t - 1]);
        let ibnr = Big::from(tally.ibnr[t - 1]);
        lines += &closing_line(&t.to_string(), &rbns, &ibnr);
    }
    let total = |amounts: &[i64]| amounts.iter().map(|&amount| Big::from(amount)).sum();
    lines += &closing_line("T", &total(&tally.rbns), &total(&tally.ibnr));
    Ok(lines)
}

/// A line of the text: a year or T, both amounts and their sum.
fn closing_line(name: &str, rbns: &Big, ibnr: &Big) -> String {
    format!("{name} {rbns} {ibnr} {}\n", rbns + ibnr)
}

/// The first line without its newline, and all that follows.
fn first_line(input: &[u8]) -> Option<(&[u8], &[u8])> {
    let newline = input.iter().position(|&byte| byte == b'\n')?;
    Some((&input[..newline], &input[newline + 1..]))
}

/// The three numbers of a first line without its newline: each of 1 to 4 digits, with a space
/// between two of them and nothing else.
fn fields(line: &[u8]) -> Option<[u64; 3]> {
    let runs: Option<Vec<u64>> = line.split(|&byte| byte == b' ').map(digits).collect();
    runs?.try_into().ok()
}

fn digits(run: &[u8]) -> Option<u64> {
    let good = (1..=4).contains(&run.len()) && run.iter().all(u8::is_ascii_digit);
    good.then(|| {
        run.iter()
            .fold(0, |value, digit| 10 * value + u64::from(digit - b'0'))
    })
}
