//! Claims reserving for closing accounts, from Rust: a safe crate over the proved library.
//!
//! A set of run-off triangles is forecast, split into RBNS and IBNR:
//!
//! ```
//! use pardesul::{Basis, Method, Triangle, TriangleSet};
//!
//! let set = TriangleSet {
//!     m: 2,
//!     line: 0,
//!     counts: Triangle::from_rows(&[&[80, 20], &[90]]),
//!     paid: Triangle::from_rows(&[&[600, 400], &[660]]),
//!     incurred: None,
//! };
//! let forecast = set.forecast(Method::Dcl, Basis::Estimated)?;
//! assert_eq!((forecast.rbns(2, 1), forecast.ibnr(2, 1)), (275, 165));
//! assert_eq!(forecast.tally().rbns[0], 337);
//! # Ok::<(), pardesul::Refusal>(())
//! ```
//!
//! Each share, ultimate, delay, weight, row base and cell is a quotient rounded to the nearest
//! whole number, halves to the even one: the 337 above are 275 and 62, of 62.5.
//!
//! A set is of one line of cover, numbered 0 to 5, so that sets of different cover are told apart.
//! Each record of its file carries the line, and each answer has it beside its numbers; no amount
//! hangs on it.
//!
//! A set is written to a file and read from one; a call on the file is a function of the same name:
//!
//! ```
//! # use pardesul::{Basis, Method, Triangle, TriangleSet};
//! # let mut set = TriangleSet {
//! #     m: 2,
//! #     line: 0,
//! #     counts: Triangle::from_rows(&[&[80, 20], &[90]]),
//! #     paid: Triangle::from_rows(&[&[600, 400], &[660]]),
//! #     incurred: None,
//! # };
//! set.line = 5;
//! let file = set.to_file()?;
//! assert_eq!(file.len(), 96);
//! assert_eq!(TriangleSet::read(&file, 2)?, set);
//!
//! let forecast = pardesul::forecast(&file, 2, Method::Dcl, Basis::Estimated)?;
//! assert_eq!(forecast, set.forecast(Method::Dcl, Basis::Estimated)?);
//! assert_eq!(forecast.line, 5);
//!
//! let refusal = TriangleSet::read(&file, 3).unwrap_err();
//! assert_eq!(refusal.number(), 2);
//! # Ok::<(), pardesul::Refusal>(())
//! ```
//!
//! Counts and paid may also come from a claims journal, a list of reports and payments:
//!
//! ```
//! use pardesul::{Basis, Journal, Method};
//!
//! let mut journal = Journal::new();
//! journal.report(7, 1, 1).pay(7, 1, 1, 600).pay(7, 1, 2, 400);
//! journal.report(8, 2, 2).pay(8, 2, 2, 660);
//! let set = journal.to_set(2)?;
//! let forecast = set.forecast(Method::Dcl, Basis::Estimated)?;
//! assert_eq!((forecast.rbns(2, 1), forecast.ibnr(2, 1)), (440, 0));
//! # Ok::<(), pardesul::Refusal>(())
//! ```
//!
//! The other calls are [`shares`], [`delays`], [`claim_costs`], [`back_test`], [`Tally::add`],
//! [`check_delays`] and [`forecast_with_delays`], for delays from elsewhere, [`closing_page`], the
//! forecast in columns, [`cash_in_window`], what falls due between two dates, [`replay`], the tally
//! of a journal, and [`respond`], the text of the program `closing`. [`calls`] has the calls
//! themselves, over memory that the caller lends.
//!
//! The crate links `crates/c_api/out/libc_api.a` of its repository, which `rt lib` in
//! `crates/c_api` writes.

#![deny(missing_docs)]

mod back_test;
pub mod calls;
mod cash;
mod claim_costs;
mod closing;
mod dates;
mod forecast;
mod given_delays;
mod journal;
mod page;
mod refusal;
mod shares;
mod tally;
mod triangles;

pub use back_test::{back_test, BackTest};
pub use cash::{cash_in_window, Cash};
pub use claim_costs::{claim_costs, ClaimCosts, Inflation};
pub use closing::respond;
pub use dates::Date;
pub use forecast::{forecast, Basis, Forecast, Method};
pub use given_delays::{check_delays, forecast_with_delays};
pub use journal::{replay, Journal, JournalTally};
pub use page::closing_page;
pub use refusal::Refusal;
pub use shares::{delays, shares, Delays, Shares};
pub use tally::Tally;
pub use triangles::{Triangle, TriangleSet};
