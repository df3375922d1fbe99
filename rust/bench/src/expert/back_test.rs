//! Back-test.

use super::cells::each_year;
use super::records::fill;
use crate::plain::{question_6, BackTest, Set};

/// Questions 1 to 6, 8, and 9 to 14 of the cut set, and the errors.
pub fn back_test(file: &[u8], m: usize, c: u64, method: u64, basis: u64) -> Result<BackTest, u64> {
    let mut set = Set::zero();
    fill(file, m, &mut set)?;
    question_6(&set, method, basis)?;
    if c < 1 || c > m as u64 - 2 {
        return Err(8);
    }
    let s = m - c as usize;
    let (mut cells, mut cellwise, mut years) = (0, 0, [0i64; 20]);
    let end = |i| s.min(m - i + 1);
    each_year(&set, s, [method, basis], end, |i, forecast| {
        let paid = &set.triangles[1][20 * (i - 1) + s - i + 1..];
        for ((year, (rbns, ibnr)), paid) in years.iter_mut().zip(forecast.iter()).zip(paid) {
            let error = rbns + ibnr - paid;
            cells += 1;
            cellwise += error.unsigned_abs();
            *year += error;
        }
    })?;
    Ok(BackTest {
        line: set.line,
        cells,
        cellwise,
        yearwise: years.iter().map(|error| error.unsigned_abs()).sum(),
        overall: years.iter().sum::<i64>().unsigned_abs(),
    })
}
