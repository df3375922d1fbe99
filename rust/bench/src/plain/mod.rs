//! Document 01 in plain Rust with 128-bit numbers, a module for each of its sections, and the
//! closing page, cash by dates, the claims journal and the given delays of document 02. It asks the
//! same questions in the same order.

mod back_test;
mod cash;
mod claim_costs;
mod closing;
mod delays;
mod forecast;
mod given_delays;
mod journal;
mod page;
mod records;
mod row_bases;
mod shares;

pub use back_test::{back_test, BackTest};
pub use cash::{cash_in_window, Cash, Date};
pub use claim_costs::{claim_costs, ClaimCosts, Inflation};
pub use closing::{first_line, respond};
pub use delays::{delays, Delays};
pub use forecast::{forecast, question_6, Forecast};
pub use given_delays::{check_delays, forecast_with_delays};
pub use journal::{replay, JournalTally};
pub use page::closing_page;
pub use records::{read_set, write_set, Set};
pub use row_bases::RowBases;
pub use shares::{shares, Shares};

/// S.
const SCALE: i128 = 1_000_000_000;

/// The nearest whole number to a / b, with b above zero; halves go to the even one.
fn nearest(a: i128, b: i128) -> i128 {
    let quotient = a / b;
    let twice = 2 * (a - quotient * b).abs();
    if twice < b || (twice == b && quotient % 2 == 0) {
        quotient
    } else {
        quotient + a.signum()
    }
}
