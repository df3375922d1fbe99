//! The closing page.

use super::closing::add_up;
use super::records::fill;
use crate::plain::{question_6, Set};

const HEADING: &[u8; 68] = b"YEAR                 RBNS                 IBNR                TOTAL\n";

/// Writes a number into a field of spaces, from the right.
fn put(field: &mut [u8], number: i64) {
    let (mut rest, mut places) = (number.unsigned_abs(), field.iter_mut().rev());
    for place in places.by_ref() {
        *place = b'0' + (rest % 10) as u8;
        rest /= 10;
        if rest == 0 {
            break;
        }
    }
    if let (true, Some(place)) = (number < 0, places.next()) {
        *place = b'-';
    }
}

fn put_amounts(line: &mut [u8; 68], rbns: i64, ibnr: i64) {
    put(&mut line[4..25], rbns);
    put(&mut line[25..46], ibnr);
    put(&mut line[46..67], rbns + ibnr);
    line[67] = b'\n';
}

/// Questions 1 to 6, 15 and 9 to 14, and the page at the front of `page`.
pub fn closing_page(
    file: &[u8],
    m: usize,
    method: u64,
    basis: u64,
    page: &mut [u8],
) -> Result<(), u64> {
    let mut set = Set::zero();
    fill(file, m, &mut set)?;
    question_6(&set, method, basis)?;
    let lines = page.get_mut(..136 * m).ok_or(15u64)?.as_chunks_mut().0;
    let (mut years, mut totals) = ([(0, 0); 38], (0, 0));
    add_up(&set, method, basis, &mut years)?;
    lines.as_flattened_mut().fill(b' ');
    let [heading, lines @ .., all] = lines else {
        return Err(15);
    };
    *heading = *HEADING;
    for ((line, &(rbns, ibnr)), t) in lines.iter_mut().zip(&years).zip(1..) {
        totals = (totals.0 + rbns, totals.1 + ibnr);
        put(&mut line[..4], t);
        put_amounts(line, rbns, ibnr);
    }
    all[1..4].copy_from_slice(b"ALL");
    put_amounts(all, totals.0, totals.1);
    Ok(())
}
