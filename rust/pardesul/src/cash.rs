//! Cash by dates.

use crate::{calls, Basis, Date, Method, Refusal, TriangleSet};

/// What falls due in a window.
#[derive(Clone, Copy, Debug, PartialEq, Eq)]
pub struct Cash {
    /// The set's line of cover.
    pub line: u64,
    /// The amount, RBNS and IBNR together.
    pub amount: i64,
}

/// What of a file's forecast, RBNS and IBNR, falls due from `start` on and before `end`.
///
/// Forecast year 1, the calendar year 1 that [`respond`] prints, starts on the valuation date, each
/// later one on the same day a year on, and after a valuation on 29 February those of common years
/// on 28 February. A forecast year's sum falls due evenly over its days. What is due before a date,
/// the years that are over and the part of the current one that has gone by, is rounded as one
/// number, and a window's amount is what is due before its end less what is due before its start:
/// so windows that adjoin add up.
///
/// ```
/// use pardesul::{cash_in_window, Basis, Date, Method, Triangle, TriangleSet};
///
/// let counts = Triangle::from_rows(&[&[80, 20], &[90]]);
/// let paid = Triangle::from_rows(&[&[600, 400], &[660]]);
/// let file = TriangleSet { m: 2, line: 0, counts, paid, incurred: None }.to_file()?;
/// let valuation = Date::new(2023, 12, 31)?;
/// let cash = |start, end| {
///     cash_in_window(&file, 2, Method::Dcl, Basis::Estimated, valuation, start, end)
///         .map(|cash| cash.amount)
/// };
///
/// // Of the first year's 502 half is due before the 184th of its 366 days.
/// let (middle, next) = (Date::new(2024, 7, 1)?, Date::new(2024, 12, 31)?);
/// assert_eq!((cash(valuation, middle)?, cash(middle, next)?), (251, 251));
///
/// // Both years; they end before this day, which is an end but no start.
/// let past = Date::new(2025, 12, 31)?;
/// assert_eq!(cash(valuation, past)?, 571);
/// assert_eq!(cash(past, past).unwrap_err().number(), 19);
/// # Ok::<(), pardesul::Refusal>(())
/// ```
///
/// [`respond`]: crate::respond
///
/// # Errors
/// Refuses with 1 to 6, 9 to 14 and 19: the valuation date is of the years 1900 to 2199, the start
/// lies in the 2m - 2 forecast years, and the end is not before it and at most the day after them.
pub fn cash_in_window(
    file: &[u8],
    m: usize,
    method: Method,
    basis: Basis,
    valuation: Date,
    start: Date,
    end: Date,
) -> Result<Cash, Refusal> {
    let dates = [valuation, start, end].map(Date::numbers);
    let (mut line, mut amount) = (0, 0);
    Refusal::of(calls::cash_in_window(
        file,
        m,
        method as u64,
        basis as u64,
        &dates,
        &mut line,
        &mut amount,
    ))?;
    Ok(Cash { line, amount })
}

impl TriangleSet {
    /// What of this set's forecast falls due in a window, as [`cash_in_window`] has it of the set's
    /// file.
    ///
    /// ```
    /// use pardesul::{Basis, Date, Method, Triangle, TriangleSet};
    ///
    /// let counts = Triangle::from_rows(&[&[80, 20], &[90]]);
    /// let paid = Triangle::from_rows(&[&[600, 400], &[660]]);
    /// let set = TriangleSet { m: 2, line: 0, counts, paid, incurred: None };
    /// let valuation = Date::new(2023, 12, 31)?;
    /// let (start, end) = (Date::new(2024, 1, 1)?, Date::new(2024, 4, 1)?);
    /// let cash = set.cash_in_window(Method::Dcl, Basis::Estimated, valuation, start, end)?;
    /// assert_eq!(cash.amount, 125);
    /// # Ok::<(), pardesul::Refusal>(())
    /// ```
    ///
    /// # Errors
    /// Refuses with 1, 3, 5, 6, 9 to 14 and 19.
    pub fn cash_in_window(
        &self,
        method: Method,
        basis: Basis,
        valuation: Date,
        start: Date,
        end: Date,
    ) -> Result<Cash, Refusal> {
        let file = self.to_file()?;
        cash_in_window(&file, self.m, method, basis, valuation, start, end)
    }
}
