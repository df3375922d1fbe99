//! Calendar years and the text of `closing`.

use super::forecast;
use std::fmt::Write;

/// The three numbers of the first line, each of 1 to 4 digits, and what follows it.
pub fn first_line(input: &[u8]) -> Option<([u64; 3], &[u8])> {
    let (mut numbers, mut rest) = ([0; 3], input);
    for (number, end) in numbers.iter_mut().zip(b"  \n") {
        let digits = rest.iter().take_while(|byte| byte.is_ascii_digit());
        let length = digits.take(5).count();
        if !(1..=4).contains(&length) || rest.get(length) != Some(end) {
            return None;
        }
        let digits = rest[..length].iter();
        *number = digits.fold(0, |number, digit| 10 * number + u64::from(digit - b'0'));
        rest = &rest[length + 1..];
    }
    Some((numbers, rest))
}

/// RBNS and IBNR of each calendar year, that of year t at place t - 1.
pub fn calendar_years(m: usize, entries: &[i64]) -> [[i128; 2]; 38] {
    let mut years = [[0; 2]; 38];
    for i in 1..=m {
        for j in m - i + 1..=2 * m - 2 {
            let at = 2 * ((i - 1) * (2 * m - 1) + j);
            let year = &mut years[i + j - m - 1];
            year[0] += i128::from(entries[at]);
            year[1] += i128::from(entries[at + 1]);
        }
    }
    years
}

fn line(text: &mut String, name: &str, [rbns, ibnr]: [i128; 2]) {
    writeln!(text, "{name} {rbns} {ibnr} {}", rbns + ibnr).expect("a string takes all");
}

fn lines(input: &[u8]) -> Result<String, u64> {
    let ([m, method, basis], file) = first_line(input).ok_or(1u64)?;
    let m = m as usize;
    let mut out = [0; 1_560];
    forecast(file, m, method, basis, &mut out)?;
    let years = calendar_years(m, &out);
    let (mut text, mut totals) = (String::new(), [0; 2]);
    for t in 1..=2 * m - 2 {
        let [rbns, ibnr] = years[t - 1];
        line(&mut text, &t.to_string(), [rbns, ibnr]);
        totals[0] += rbns;
        totals[1] += ibnr;
    }
    line(&mut text, "T", totals);
    Ok(text)
}

/// The text's length, with the text at the front of `out`; 0 where it does not fit.
pub fn respond(input: &[u8], out: &mut [u8]) -> usize {
    let text = lines(input).unwrap_or_else(|refusal| format!("refused {refusal}\n"));
    if text.len() > out.len() {
        return 0;
    }
    out[..text.len()].copy_from_slice(text.as_bytes());
    text.len()
}
