//! The calls of the static library over lent memory, one function for each. The answer is the
//! refusal number, but for [`respond`]: 0 where the call is accepted; a refusal leaves lent memory
//! as it was. A call that takes the file of one set hands the set's line of cover, 0 to 5, back in
//! `line`, but for [`closing_page`], whose page is the same on every line.

use crate::JournalTally;

mod foreign {
    use crate::JournalTally;

    extern "C" {
        pub fn pardesul_read_set(
            file: *const u8,
            file_len: usize,
            m: usize,
            line: *mut u64,
            has_incurred: *mut bool,
            counts: *mut [i64; 400],
            paid: *mut [i64; 400],
            incurred: *mut [i64; 400],
        ) -> u64;
        pub fn pardesul_write_set(
            m: usize,
            line: u64,
            has_incurred: bool,
            counts: *const [i64; 400],
            paid: *const [i64; 400],
            incurred: *const [i64; 400],
            out: *mut u8,
            out_len: usize,
        ) -> u64;
        pub fn pardesul_shares(
            file: *const u8,
            file_len: usize,
            m: usize,
            line: *mut u64,
            b: *mut [i64; 20],
            n: *mut [i64; 20],
            q: *mut [i64; 20],
            g: *mut [i64; 20],
            u: *mut [i64; 20],
        ) -> u64;
        pub fn pardesul_delays(
            file: *const u8,
            file_len: usize,
            m: usize,
            line: *mut u64,
            p: *mut [i64; 20],
        ) -> u64;
        pub fn pardesul_check_delays(
            file: *const u8,
            file_len: usize,
            m: usize,
            delays: *const i64,
            number: usize,
            line: *mut u64,
        ) -> u64;
        pub fn pardesul_claim_costs(
            file: *const u8,
            file_len: usize,
            m: usize,
            line: *mut u64,
            mu: *mut f64,
            factors: *mut [f64; 20],
            kinds: *mut [u8; 20],
            ratios: *mut [f64; 20],
        ) -> u64;
        pub fn pardesul_forecast(
            file: *const u8,
            file_len: usize,
            m: usize,
            method: u64,
            basis: u64,
            line: *mut u64,
            out: *mut i64,
            out_len: usize,
            leftovers: *mut [i64; 20],
        ) -> u64;
        pub fn pardesul_forecast_with_delays(
            file: *const u8,
            file_len: usize,
            m: usize,
            method: u64,
            basis: u64,
            delays: *const i64,
            number: usize,
            line: *mut u64,
            out: *mut i64,
            out_len: usize,
            leftovers: *mut [i64; 20],
        ) -> u64;
        pub fn pardesul_back_test(
            file: *const u8,
            file_len: usize,
            m: usize,
            method: u64,
            basis: u64,
            c: usize,
            line: *mut u64,
            cells: *mut u64,
            cellwise: *mut u64,
            yearwise: *mut u64,
            overall: *mut u64,
        ) -> u64;
        pub fn pardesul_closing_page(
            file: *const u8,
            file_len: usize,
            m: usize,
            method: u64,
            basis: u64,
            page: *mut u8,
            page_len: usize,
        ) -> u64;
        pub fn pardesul_cash_in_window(
            file: *const u8,
            file_len: usize,
            m: usize,
            method: u64,
            basis: u64,
            valuation: *const [u64; 3],
            start: *const [u64; 3],
            end: *const [u64; 3],
            line: *mut u64,
            amount: *mut i64,
        ) -> u64;
        pub fn pardesul_replay(
            journal: *const u8,
            journal_len: usize,
            m: usize,
            tally: *mut JournalTally,
        ) -> u64;
        pub fn pardesul_tally_add(
            rbns: *mut [i64; 38],
            ibnr: *mut [i64; 38],
            year: u64,
            reported: i64,
            unreported: i64,
        );
        pub fn pardesul_respond(
            input: *const u8,
            input_len: usize,
            out: *mut u8,
            out_len: usize,
        ) -> usize;
    }
}

/// The set of a file: its line of cover, each triangle with cell (i,j) at 20 × (i-1) + j and zeros
/// elsewhere, and `has_incurred`, whether incurred is there.
///
/// ```
/// use pardesul::calls::{read_set, write_set};
///
/// let mut file = [0; 96];
/// assert_eq!(write_set(2, 5, false, &[1; 400], &[1; 400], &[0; 400], &mut file), 0);
/// let (mut line, mut has_incurred) = (9, true);
/// let [mut counts, mut paid, mut incurred] = [[9; 400]; 3];
/// let refusal =
///     read_set(&[], 2, &mut line, &mut has_incurred, &mut counts, &mut paid, &mut incurred);
/// assert_eq!((refusal, line, has_incurred), (2, 9, true));
/// assert_eq!([counts, paid, incurred], [[9; 400]; 3]);
/// let refusal =
///     read_set(&file, 2, &mut line, &mut has_incurred, &mut counts, &mut paid, &mut incurred);
/// assert_eq!((refusal, line, has_incurred), (0, 5, false));
/// assert_eq!((&counts[..3], &counts[20..22]), (&[1, 1, 0][..], &[1, 0][..]));
/// ```
pub fn read_set(
    file: &[u8],
    m: usize,
    line: &mut u64,
    has_incurred: &mut bool,
    counts: &mut [i64; 400],
    paid: &mut [i64; 400],
    incurred: &mut [i64; 400],
) -> u64 {
    // SAFETY: the pointers are of references, which are valid and, where they are written through,
    // unshared. The library writes a byte 0 or 1 to `has_incurred`, which a bool may hold.
    unsafe {
        foreign::pardesul_read_set(
            file.as_ptr(),
            file.len(),
            m,
            line,
            has_incurred,
            counts,
            paid,
            incurred,
        )
    }
}

/// Writes a set's file to the front of `out`, its records by kind, then accident year, then delay,
/// each ascending, and each with the line of cover; the bytes past it stay. `has_incurred` says
/// whether incurred is there.
///
/// ```
/// use pardesul::calls::write_set;
///
/// let mut out = [9; 100];
/// assert_eq!(write_set(2, 5, false, &[1; 400], &[1; 400], &[0; 400], &mut out), 0);
/// assert_eq!(out[..9], [0, 1, 0, 5, 0, 0, 0, 0, 1]);
/// assert_eq!(out[16..25], [0, 1, 1, 5, 0, 0, 0, 0, 1]);
/// assert_eq!(out[96..], [9; 4]);
/// assert_eq!(write_set(2, 6, false, &[1; 400], &[1; 400], &[0; 400], &mut out), 3);
/// assert_eq!(write_set(2, 5, true, &[1; 400], &[1; 400], &[0; 400], &mut out), 7);
/// ```
pub fn write_set(
    m: usize,
    line: u64,
    has_incurred: bool,
    counts: &[i64; 400],
    paid: &[i64; 400],
    incurred: &[i64; 400],
    out: &mut [u8],
) -> u64 {
    // SAFETY: as above.
    unsafe {
        foreign::pardesul_write_set(
            m,
            line,
            has_incurred,
            counts,
            paid,
            incurred,
            out.as_mut_ptr(),
            out.len(),
        )
    }
}

/// Shares and ultimates: b and N of counts; q, g and U of paid. Delay j stands at place j, year i
/// at place i - 1, and zeros in the other places.
///
/// ```
/// use pardesul::calls::{shares, write_set};
///
/// let mut file = [0; 96];
/// assert_eq!(write_set(2, 5, false, &[1; 400], &[1; 400], &[0; 400], &mut file), 0);
/// let (mut line, [mut b, mut n, mut q, mut g, mut u]) = (9, [[9; 20]; 5]);
/// assert_eq!(shares(&[], 2, &mut line, &mut b, &mut n, &mut q, &mut g, &mut u), 2);
/// assert_eq!((line, [b, n, q, g, u]), (9, [[9; 20]; 5]));
/// assert_eq!(shares(&file, 2, &mut line, &mut b, &mut n, &mut q, &mut g, &mut u), 0);
/// assert_eq!((line, &n[..3]), (5, &[2, 2, 0][..]));
/// ```
#[allow(clippy::too_many_arguments)] // as many as the call has
pub fn shares(
    file: &[u8],
    m: usize,
    line: &mut u64,
    b: &mut [i64; 20],
    n: &mut [i64; 20],
    q: &mut [i64; 20],
    g: &mut [i64; 20],
    u: &mut [i64; 20],
) -> u64 {
    // SAFETY: as above.
    unsafe { foreign::pardesul_shares(file.as_ptr(), file.len(), m, line, b, n, q, g, u) }
}

/// The delays: p(l) at place l, and zeros in the other places.
///
/// ```
/// use pardesul::calls::{delays, write_set};
///
/// let mut file = [0; 96];
/// assert_eq!(write_set(2, 5, false, &[1; 400], &[1; 400], &[0; 400], &mut file), 0);
/// let (mut line, mut p) = (9, [9; 20]);
/// assert_eq!(delays(&[], 2, &mut line, &mut p), 2);
/// assert_eq!((line, p), (9, [9; 20]));
/// assert_eq!(delays(&file, 2, &mut line, &mut p), 0);
/// assert_eq!((line, &p[..3]), (5, &[1_000_000_000, 0, 0][..]));
/// ```
pub fn delays(file: &[u8], m: usize, line: &mut u64, p: &mut [i64; 20]) -> u64 {
    // SAFETY: as above.
    unsafe { foreign::pardesul_delays(file.as_ptr(), file.len(), m, line, p) }
}

/// Whether delays from elsewhere, any number of them, are delays of the set.
///
/// ```
/// use pardesul::calls::{check_delays, write_set};
///
/// // Each year has one claim, on which 1000 is paid at once and 1000 a year later.
/// let (mut file, mut line) = ([0; 96], 9);
/// let counts = std::array::from_fn(|place| [1, 0][place % 2]);
/// assert_eq!(write_set(2, 5, false, &counts, &[1_000; 400], &[0; 400], &mut file), 0);
/// assert_eq!(check_delays(&file, 2, &[500_000_000, 500_000_001], &mut line), 20);
/// assert_eq!(check_delays(&file, 2, &[500_000_000], &mut line), 20);
/// assert_eq!(line, 9);
/// assert_eq!(check_delays(&file, 2, &[500_000_000, 500_000_000], &mut line), 0);
/// assert_eq!(line, 5);
/// ```
pub fn check_delays(file: &[u8], m: usize, delays: &[i64], line: &mut u64) -> u64 {
    let (len, number) = (file.len(), delays.len());
    // SAFETY: as above.
    unsafe { foreign::pardesul_check_delays(file.as_ptr(), len, m, delays.as_ptr(), number, line) }
}

/// The claim costs: mu; f(j) of paid at place j - 1, and zeros in the other places; of year i's
/// inflation at place i - 1 the kind, 0 the base year, 1 no payments yet, 2 a ratio, and the ratio,
/// 0 where there is none. The kind is 1 in the other places.
///
/// ```
/// use pardesul::calls::{claim_costs, write_set};
///
/// let mut file = [0; 96];
/// assert_eq!(write_set(2, 5, false, &[1; 400], &[1; 400], &[0; 400], &mut file), 0);
/// let (mut line, mut mu) = (9, 9.0);
/// let (mut factors, mut kinds, mut ratios) = ([9.0; 20], [9; 20], [9.0; 20]);
/// let refusal = claim_costs(&[], 2, &mut line, &mut mu, &mut factors, &mut kinds, &mut ratios);
/// assert_eq!((refusal, line, mu), (2, 9, 9.0));
/// assert_eq!((factors, kinds, ratios), ([9.0; 20], [9; 20], [9.0; 20]));
/// let refusal = claim_costs(&file, 2, &mut line, &mut mu, &mut factors, &mut kinds, &mut ratios);
/// assert_eq!((refusal, line, mu), (0, 5, 1.0));
/// ```
pub fn claim_costs(
    file: &[u8],
    m: usize,
    line: &mut u64,
    mu: &mut f64,
    factors: &mut [f64; 20],
    kinds: &mut [u8; 20],
    ratios: &mut [f64; 20],
) -> u64 {
    let (at, len) = (file.as_ptr(), file.len());
    // SAFETY: as above.
    unsafe { foreign::pardesul_claim_costs(at, len, m, line, mu, factors, kinds, ratios) }
}

/// The forecast: 2m(2m-1) entries at the front of `out`, where those past them stay, and the
/// leftover of year i at place i - 1. Entry 2 × ((i-1) × (2m-1) + j) is RBNS of year i at delay j,
/// the next one IBNR. Methods 0 DCL, 1 BDCL, 2 IDCL; bases 0 actual, 1 estimated counts.
///
/// ```
/// use pardesul::calls::{forecast, write_set};
///
/// let mut file = [0; 96];
/// assert_eq!(write_set(2, 5, false, &[1; 400], &[1; 400], &[0; 400], &mut file), 0);
/// let (mut line, mut out, mut leftovers) = (9, [9; 12], [9; 20]);
/// assert_eq!(forecast(&[], 2, 0, 1, &mut line, &mut out, &mut leftovers), 2);
/// assert_eq!((line, out, leftovers), (9, [9; 12], [9; 20]));
/// assert_eq!(forecast(&file, 2, 0, 1, &mut line, &mut out, &mut leftovers), 0);
/// assert_eq!((line, &out[8..10], leftovers), (5, &[0, 1][..], [0; 20]));
/// ```
pub fn forecast(
    file: &[u8],
    m: usize,
    method: u64,
    basis: u64,
    line: &mut u64,
    out: &mut [i64],
    leftovers: &mut [i64; 20],
) -> u64 {
    let (len, room) = (file.len(), out.len());
    // SAFETY: as above.
    unsafe {
        foreign::pardesul_forecast(
            file.as_ptr(),
            len,
            m,
            method,
            basis,
            line,
            out.as_mut_ptr(),
            room,
            leftovers,
        )
    }
}

/// The forecast with delays from elsewhere, any number of them, in place of those solved here; all
/// else is as in [`forecast`].
///
/// ```
/// use pardesul::calls::{forecast_with_delays, write_set};
///
/// // Each year has one claim, on which 1000 is paid at once and 1000 a year later.
/// let (mut file, mut line, mut out, mut leftovers) = ([0; 96], 9, [9; 12], [9; 20]);
/// let counts = std::array::from_fn(|place| [1, 0][place % 2]);
/// assert_eq!(write_set(2, 5, false, &counts, &[1_000; 400], &[0; 400], &mut file), 0);
/// let off = [500_000_000, 500_000_001];
/// let refusal = forecast_with_delays(&file, 2, 0, 1, &off, &mut line, &mut out, &mut leftovers);
/// assert_eq!((refusal, line, out, leftovers), (20, 9, [9; 12], [9; 20]));
/// let own = [500_000_000; 2];
/// let refusal = forecast_with_delays(&file, 2, 0, 1, &own, &mut line, &mut out, &mut leftovers);
/// assert_eq!((refusal, line, &out[8..10], leftovers), (0, 5, &[1_000, 0][..], [0; 20]));
/// ```
#[allow(clippy::too_many_arguments)] // as many as the call has
pub fn forecast_with_delays(
    file: &[u8],
    m: usize,
    method: u64,
    basis: u64,
    delays: &[i64],
    line: &mut u64,
    out: &mut [i64],
    leftovers: &mut [i64; 20],
) -> u64 {
    let (len, number, room) = (file.len(), delays.len(), out.len());
    // SAFETY: as above.
    unsafe {
        foreign::pardesul_forecast_with_delays(
            file.as_ptr(),
            len,
            m,
            method,
            basis,
            delays.as_ptr(),
            number,
            line,
            out.as_mut_ptr(),
            room,
            leftovers,
        )
    }
}

/// The back-test with the latest `c` calendar years cut off: the number of cells compared, and the
/// sums of absolute errors by cell, by calendar year and of the total, in this order.
///
/// ```
/// use pardesul::calls::{back_test, write_set};
///
/// let mut file = [0; 192];
/// assert_eq!(write_set(3, 5, false, &[1; 400], &[1; 400], &[0; 400], &mut file), 0);
/// let (mut line, mut sums) = (9, [9; 4]);
/// assert_eq!(back_test(&file, 3, 0, 1, 2, &mut line, &mut sums), 8);
/// assert_eq!((line, sums), (9, [9; 4]));
/// assert_eq!(back_test(&file, 3, 0, 1, 1, &mut line, &mut sums), 0);
/// assert_eq!((line, sums), (5, [1, 0, 0, 0]));
/// ```
pub fn back_test(
    file: &[u8],
    m: usize,
    method: u64,
    basis: u64,
    c: usize,
    line: &mut u64,
    sums: &mut [u64; 4],
) -> u64 {
    let [cells, cellwise, yearwise, overall] = sums;
    let (at, len) = (file.as_ptr(), file.len());
    // SAFETY: as above.
    unsafe {
        foreign::pardesul_back_test(
            at, len, m, method, basis, c, line, cells, cellwise, yearwise, overall,
        )
    }
}

/// The closing page: 136 × m bytes at the front of `page`, where those past them stay. A line has
/// the year in 4 bytes, RBNS, IBNR and their sum in 21 each, and a newline.
///
/// ```
/// use pardesul::calls::{closing_page, write_set};
///
/// let (mut file, mut page) = ([0; 96], [9; 273]);
/// assert_eq!(write_set(2, 5, false, &[1; 400], &[1; 400], &[0; 400], &mut file), 0);
/// assert_eq!(closing_page(&file, 2, 0, 1, &mut page[..271]), 15);
/// assert_eq!(page, [9; 273]);
/// assert_eq!(closing_page(&file, 2, 0, 1, &mut page), 0);
/// assert_eq!(&page[..25], b"YEAR                 RBNS");
/// assert_eq!(page[271..], [b'\n', 9]);
/// ```
pub fn closing_page(file: &[u8], m: usize, method: u64, basis: u64, page: &mut [u8]) -> u64 {
    let (len, room) = (file.len(), page.len());
    // SAFETY: as above.
    unsafe {
        foreign::pardesul_closing_page(
            file.as_ptr(),
            len,
            m,
            method,
            basis,
            page.as_mut_ptr(),
            room,
        )
    }
}

/// What of the forecast falls due in a window. The dates are the valuation date, the window's start
/// and its end, each a year, a month and a day: any numbers.
///
/// ```
/// use pardesul::calls::{cash_in_window, write_set};
///
/// // Each year has one claim, on which 1000 is paid at once and 1000 a year later.
/// let (mut file, mut line, mut amount) = ([0; 96], 9, 9);
/// let counts = std::array::from_fn(|place| [1, 0][place % 2]);
/// assert_eq!(write_set(2, 5, false, &counts, &[1_000; 400], &[0; 400], &mut file), 0);
/// let mut dates = [[2023, 12, 31], [2024, 2, 29], [2024, 2, 30]];
/// assert_eq!(cash_in_window(&file, 2, 0, 1, &dates, &mut line, &mut amount), 19);
/// assert_eq!((line, amount), (9, 9));
/// dates[2] = [2024, 12, 31];
/// assert_eq!(cash_in_window(&file, 2, 0, 1, &dates, &mut line, &mut amount), 0);
/// assert_eq!((line, amount), (5, 836));
/// ```
pub fn cash_in_window(
    file: &[u8],
    m: usize,
    method: u64,
    basis: u64,
    dates: &[[u64; 3]; 3],
    line: &mut u64,
    amount: &mut i64,
) -> u64 {
    let [valuation, start, end] = dates;
    let (at, len) = (file.as_ptr(), file.len());
    // SAFETY: as above.
    unsafe {
        foreign::pardesul_cash_in_window(
            at, len, m, method, basis, valuation, start, end, line, amount,
        )
    }
}

/// The tally of a claims journal, which has 0 to 4096 transactions of 16 bytes. It starts from
/// zeros, whatever was handed in.
///
/// ```
/// use pardesul::{calls::replay, JournalTally};
///
/// let mut tally = JournalTally::zero();
/// let report = [7, 1, 0, 0, 0, 1, 2, 0, 0, 0, 0, 0, 0, 0, 0, 0];
/// assert_eq!(replay(&report, 2, &mut tally), 0);
/// assert_eq!((tally.claims[263], tally.counts[1], tally.last), (1, 1, 2));
/// assert_eq!(replay(&report[..15], 2, &mut tally), 16);
/// assert_eq!((tally.claims[263], tally.counts[1], tally.last), (1, 1, 2));
/// assert_eq!(replay(&[], 2, &mut tally), 0);
/// assert_eq!(tally, JournalTally::zero());
/// ```
pub fn replay(journal: &[u8], m: usize, tally: &mut JournalTally) -> u64 {
    // SAFETY: as above. A tally is laid out as in C, and may hold any numbers.
    unsafe { foreign::pardesul_replay(journal.as_ptr(), journal.len(), m, tally) }
}

/// Adds a cell to the sums of its calendar year, which stands at place `year` - 1. A year outside 1
/// to 38, or a sum past 64 bits, changes nothing.
///
/// ```
/// use pardesul::calls::tally_add;
///
/// let (mut rbns, mut ibnr) = ([0; 38], [0; 38]);
/// tally_add(&mut rbns, &mut ibnr, 1, 275, 165);
/// tally_add(&mut rbns, &mut ibnr, 39, 1, 1);
/// assert_eq!((rbns[0], ibnr[0]), (275, 165));
/// ```
pub fn tally_add(
    rbns: &mut [i64; 38],
    ibnr: &mut [i64; 38],
    year: u64,
    reported: i64,
    unreported: i64,
) {
    // SAFETY: as above.
    unsafe { foreign::pardesul_tally_add(rbns, ibnr, year, reported, unreported) }
}

/// Writes the text that `closing` prints for the input to the front of `out`, where the bytes past
/// it stay, and hands back its length; hands back 0 and writes nothing where `out` is too short.
///
/// ```
/// use pardesul::calls::respond;
///
/// let mut out = [9; 12];
/// assert_eq!(respond(b"2 0 1", &mut out), 10);
/// assert_eq!(&out, b"refused 1\n\x09\x09");
/// assert_eq!(respond(b"2 0 1\n", &mut out[..9]), 0);
/// assert_eq!(&out, b"refused 1\n\x09\x09");
/// ```
pub fn respond(input: &[u8], out: &mut [u8]) -> usize {
    // SAFETY: as above.
    unsafe { foreign::pardesul_respond(input.as_ptr(), input.len(), out.as_mut_ptr(), out.len()) }
}
