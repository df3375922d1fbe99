//! An independent big-number calculation of document 01: a module for each of its sections, with
//! its letters, with what document 02 has changed, and some for the closing page, the claims
//! journal, cash by dates and the given delays of document 02. Every quantity is a whole number of
//! any size, rounded only where the document rounds, so that nothing here depends on how large the
//! numbers get; in the journal 64 bits hold any sum, and 128 bits any number of days. `halves`
//! counts where the rounding met a half.

pub mod back_test;
pub mod big;
pub mod calendar;
pub mod cash;
pub mod claim_costs;
pub mod dates;
pub mod delays;
pub mod examples;
pub mod forecast;
pub mod fraction;
pub mod generate;
pub mod given_delays;
pub mod halves;
pub mod journal;
pub mod page;
pub mod paid_reserve;
pub mod records;
pub mod rounding;
pub mod row_bases;
pub mod shares;
pub mod source_002;

pub use back_test::{back_test, BackTest};
pub use big::Big;
pub use calendar::{closing, Tally};
pub use cash::{cash_in_window, Cash, Window};
pub use claim_costs::{claim_costs, ClaimCosts, Inflation};
pub use dates::Date;
pub use delays::{delays, Delays};
pub use forecast::{forecast, Forecast};
pub use given_delays::{check_delays, forecast_with_delays};
pub use journal::{replay, JournalTally, Transaction};
pub use page::closing_page;
pub use paid_reserve::{demand3, ReserveDistance};
pub use records::{read_set, write_set, Refusal, Set};
pub use shares::{shares, Shares};
