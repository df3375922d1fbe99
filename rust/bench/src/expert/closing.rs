//! The text of `closing`.

use super::cells::each_year;
use super::records::fill;
use crate::plain::{first_line, question_6, Set};

/// RBNS and IBNR of each calendar year, that of year t at place t - 1.
pub type Years = [(i64, i64); 38];

/// A text of at most so many bytes as the longest has.
struct Text {
    bytes: [u8; 2_573],
    length: usize,
}

impl Text {
    fn push(&mut self, bytes: &[u8]) {
        self.bytes[self.length..][..bytes.len()].copy_from_slice(bytes);
        self.length += bytes.len();
    }

    fn push_number(&mut self, number: i64) {
        let (mut digits, mut first) = ([0; 20], 20);
        let mut rest = number.unsigned_abs();
        loop {
            first -= 1;
            digits[first] = b'0' + (rest % 10) as u8;
            rest /= 10;
            if rest == 0 {
                break;
            }
        }
        if number < 0 {
            first -= 1;
            digits[first] = b'-';
        }
        self.push(&digits[first..]);
    }

    /// The rest of a line: both amounts and their sum.
    fn push_amounts(&mut self, rbns: i64, ibnr: i64) {
        for amount in [rbns, ibnr, rbns + ibnr] {
            self.push(b" ");
            self.push_number(amount);
        }
        self.push(b"\n");
    }
}

/// Questions 9 to 14, and the sums of each calendar year, where zeros stood.
pub fn add_up(set: &Set, method: u64, basis: u64, years: &mut Years) -> Result<(), u64> {
    let end = 2 * set.m - 1;
    each_year(
        set,
        set.m,
        [method, basis],
        |_| end,
        |_, cells| {
            for (year, (rbns, ibnr)) in years.iter_mut().zip(cells.iter()) {
                *year = (year.0 + rbns, year.1 + ibnr);
            }
        },
    )?;
    Ok(())
}

fn push_lines(input: &[u8], text: &mut Text) -> Result<(), u64> {
    let ([m, method, basis], file) = first_line(input).ok_or(1u64)?;
    let mut set = Set::zero();
    fill(file, m as usize, &mut set)?;
    question_6(&set, method, basis)?;
    let (mut years, mut totals) = ([(0, 0); 38], (0, 0));
    add_up(&set, method, basis, &mut years)?;
    for (&(rbns, ibnr), t) in years[..2 * set.m - 2].iter().zip(1..) {
        totals = (totals.0 + rbns, totals.1 + ibnr);
        text.push_number(t);
        text.push_amounts(rbns, ibnr);
    }
    text.push(b"T");
    text.push_amounts(totals.0, totals.1);
    Ok(())
}

/// The text's length, with the text at the front of `out`; 0 where it does not fit.
pub fn respond(input: &[u8], out: &mut [u8]) -> usize {
    let mut text = Text {
        bytes: [0; 2_573],
        length: 0,
    };
    if let Err(refusal) = push_lines(input, &mut text) {
        text.push(b"refused ");
        text.push_number(refusal as i64);
        text.push(b"\n");
    }
    let Some(front) = out.get_mut(..text.length) else {
        return 0;
    };
    front.copy_from_slice(&text.bytes[..text.length]);
    text.length
}
