//! The same as an expert's safe Rust: one pass over the file, lists filled in place, sums that are
//! carried on, 64 bits wherever the ranges allow, nothing allocated. It asks the same questions in
//! the same order as the plain one, with the same types.

mod back_test;
mod cash;
mod cells;
mod claim_costs;
mod closing;
mod delays;
mod forecast;
mod given_delays;
mod journal;
mod page;
mod records;
mod row_bases;
mod shares;

pub use back_test::back_test;
pub use cash::cash_in_window;
pub use claim_costs::claim_costs;
pub use closing::respond;
pub use delays::delays;
pub use forecast::forecast;
pub use given_delays::{check_delays, forecast_with_delays};
pub use journal::replay;
pub use page::closing_page;
pub use records::{read_set, write_set};
pub use shares::shares;

/// S.
const SCALE: i64 = 1_000_000_000;

/// The nearest whole number to a / b, with b above zero; halves go to the even one, as an odd
/// quotient tips them.
fn nearest(a: i64, b: i64) -> i64 {
    let (size, b) = (a.unsigned_abs(), b as u64);
    let (quotient, rest) = (size / b, size % b);
    let rounded = (quotient + u64::from(2 * rest + (quotient & 1) > b)) as i64;
    if a < 0 {
        -rounded
    } else {
        rounded
    }
}

/// The nearest whole number to a × b / c, with c above zero. What is left of a division fits 64
/// bits, whatever the quotient does.
fn nearest_of_product(a: i64, b: i64, c: i64) -> i128 {
    let product = i128::from(a) * i128::from(b);
    let (size, c) = (product.unsigned_abs(), c as u64);
    let quotient = size / u128::from(c);
    let rest = (size as u64).wrapping_sub((quotient as u64).wrapping_mul(c));
    let up = 2 * rest + (quotient as u64 & 1) > c;
    let rounded = quotient as i128 + i128::from(up);
    if product < 0 {
        -rounded
    } else {
        rounded
    }
}
