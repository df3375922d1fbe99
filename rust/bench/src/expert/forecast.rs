//! The forecast of a file.

use super::cells::each_year_by;
use super::delays::solve;
use super::records::fill;
use super::shares::Estimates;
use crate::plain::{question_6, Forecast, Set};

/// Questions 1 to 7 and 9 to 14, the entries at the front of `out`, the line and the leftovers.
pub fn forecast(
    file: &[u8],
    m: usize,
    method: u64,
    basis: u64,
    out: &mut [i64],
) -> Result<Forecast, u64> {
    forecast_by(file, m, [method, basis], |found| solve(m, found), out)
}

/// The same with delays from the estimates, and the question that `delays` asks in place of 12.
pub fn forecast_by(
    file: &[u8],
    m: usize,
    settings: [u64; 2],
    delays: impl FnOnce(&Estimates) -> Result<[i64; 20], u64>,
    out: &mut [i64],
) -> Result<Forecast, u64> {
    let mut set = Set::zero();
    fill(file, m, &mut set)?;
    question_6(&set, settings[0], settings[1])?;
    let width = 2 * (2 * m - 1);
    let mut rows = out
        .get_mut(..m * width)
        .ok_or(7u64)?
        .chunks_exact_mut(width);
    each_year_by(
        &set,
        m,
        settings,
        delays,
        |_| 2 * m - 1,
        |i, cells| {
            let Some(row) = rows.next() else { return };
            let (known, unknown) = row.split_at_mut(2 * (m - i + 1));
            known.fill(0);
            for (entry, cell) in unknown.as_chunks_mut().0.iter_mut().zip(cells.iter()) {
                *entry = cell.into();
            }
        },
    )
}
