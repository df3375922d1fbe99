//! Every call of the library against the independent calculation of `reference`, bit for bit: each
//! case follows from its seed, and the memory that a call is lent stands between words that have to
//! stay.

mod counts;
mod difference;
mod examples;
mod files;
mod journal;
mod memory;
mod respond;
mod tally;
mod writer;

pub use counts::Counts;
pub use difference::Difference;
pub use examples::{edges, examples};

use reference::generate::Case;
use reference::Window;

/// A comparison of one or several calls on the case of a seed.
pub struct Comparison {
    pub name: &'static str,
    of: fn(u64, &mut Counts) -> Result<(), Difference>,
}

/// All comparisons.
pub const COMPARISONS: [Comparison; 8] = [
    Comparison {
        name: "files",
        of: files::of_case,
    },
    Comparison {
        name: "damaged files",
        of: files::of_damaged,
    },
    Comparison {
        name: "writer",
        of: writer::of_case,
    },
    Comparison {
        name: "journals",
        of: journal::of_case,
    },
    Comparison {
        name: "damaged journals",
        of: journal::of_damaged,
    },
    Comparison {
        name: "tally",
        of: tally::of_case,
    },
    Comparison {
        name: "inputs",
        of: respond::of_case,
    },
    Comparison {
        name: "damaged inputs",
        of: respond::of_damaged,
    },
];

impl Comparison {
    /// Compares on these seeds, and counts; stops at the first difference.
    pub fn run(&self, seeds: impl Iterator<Item = u64>) -> Result<Counts, Difference> {
        let mut counts = Counts::default();
        for seed in seeds {
            (self.of)(seed, &mut counts)?;
        }
        Ok(counts)
    }
}

/// Compares every call that takes a file on any case; the seed chooses the memory that is lent.
pub fn every_call(seed: u64, case: &Case) -> Result<(), Difference> {
    let first_line = format!("{} {} {}\n", case.m, case.method, case.basis);
    let input = [first_line.as_bytes(), &case.file].concat();
    respond(seed, &input)?;
    files::compare(seed, case, &mut Counts::default())
}

/// Compares `respond` on any input.
pub fn respond(seed: u64, input: &[u8]) -> Result<(), Difference> {
    respond::compare(seed, input, &mut Counts::default()).map(|_| ())
}

/// Compares `closing_page` on any file, any m, method and basis, and a page of any length.
pub fn closing_page(
    seed: u64,
    file: &[u8],
    settings: [u64; 3],
    page_len: usize,
) -> Result<(), Difference> {
    files::closing_page(seed, file, settings, page_len, &mut Counts::default()).map(|_| ())
}

/// Compares `cash_in_window` on any file, any m, method and basis, and any dates.
pub fn cash_in_window(
    seed: u64,
    file: &[u8],
    settings: [u64; 3],
    window: &Window,
) -> Result<(), Difference> {
    files::cash_in_window(seed, file, settings, window)
}

/// Compares `check_delays` and `forecast_with_delays` on any file, any m, method and basis, any
/// delays, and an output of any length.
pub fn forecast_with_delays(
    seed: u64,
    file: &[u8],
    settings: [u64; 3],
    delays: &[i64],
    out_len: usize,
) -> Result<(), Difference> {
    files::forecast_with_delays(seed, file, settings, delays, out_len)
}

/// Compares `read_set` on any file and m.
pub fn read_set(seed: u64, file: &[u8], m: u64) -> Result<(), Difference> {
    files::read_set(seed, file, m).map(|_| ())
}

/// Compares `replay` on any journal and m.
pub fn replay(seed: u64, journal: &[u8], m: u64) -> Result<(), Difference> {
    journal::compare(seed, journal, m).map(|_| ())
}
