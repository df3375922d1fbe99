//! Delays from elsewhere.

use crate::{calls, Basis, Forecast, Method, Refusal, TriangleSet};

/// Whether delays from elsewhere, in billionths, are delays of the file's set; hands back the set's
/// line of cover where they are.
///
/// They are where there are m, each is within -8 × 10^9 to 8 × 10^9, and for each l from 0 to m - 1
/// the sum of b(k) × p(l-k), k from 0 to l, is at most b(0) / 2 away from 10^9 × q(l), with b and q
/// of [`shares`]. Those of [`delays`] always are. A delay is a rounded quotient; where that is a
/// half, both its neighbours stand, and so do delays that go on from either of them.
///
/// ```
/// use pardesul::{check_delays, delays, Triangle, TriangleSet};
///
/// let counts = Triangle::from_rows(&[&[2, 3], &[2]]);
/// let paid = Triangle::from_rows(&[&[1_000_001, 998_999_999], &[1_000_001]]);
/// let file = TriangleSet { m: 2, line: 5, counts, paid, incurred: None }.to_file()?;
/// assert_eq!(delays(&file, 2)?.p, [2_500_002, 2_493_749_994]);
///
/// // 2500002.5 and then 2493749994.5, and what follows from the first one rounded up.
/// assert_eq!(check_delays(&file, 2, &[2_500_002, 2_493_749_995])?, 5);
/// assert_eq!(check_delays(&file, 2, &[2_500_003, 2_493_749_993])?, 5);
/// assert_eq!(check_delays(&file, 2, &[2_500_003, 2_493_749_994]).unwrap_err().number(), 20);
/// assert_eq!(check_delays(&file, 2, &[2_500_002]).unwrap_err().number(), 20);
/// # Ok::<(), pardesul::Refusal>(())
/// ```
///
/// [`shares`]: crate::shares
/// [`delays`]: crate::delays
///
/// # Errors
/// Refuses with 1 to 5, 9 to 11 and 20.
pub fn check_delays(file: &[u8], m: usize, delays: &[i64]) -> Result<u64, Refusal> {
    let mut line = 0;
    Refusal::of(calls::check_delays(file, m, delays, &mut line))?;
    Ok(line)
}

/// The forecast of a file with delays from elsewhere, those that [`check_delays`] accepts, in place
/// of the ones solved here.
///
/// ```
/// use pardesul::{delays, forecast, forecast_with_delays, Basis, Method, Triangle, TriangleSet};
///
/// let counts = Triangle::from_rows(&[&[2, 3], &[2]]);
/// let paid = Triangle::from_rows(&[&[1_000_001, 998_999_999], &[1_000_001]]);
/// let file = TriangleSet { m: 2, line: 0, counts, paid, incurred: None }.to_file()?;
/// let with = |delays: &[i64]| {
///     forecast_with_delays(&file, 2, Method::Dcl, Basis::Estimated, delays)
/// };
/// assert_eq!(with(&delays(&file, 2)?.p), forecast(&file, 2, Method::Dcl, Basis::Estimated));
/// assert_eq!(with(&[2_500_002, 2_493_749_994])?.rbns(1, 2), 1_496_249_996);
/// assert_eq!(with(&[2_500_002, 2_493_749_995])?.rbns(1, 2), 1_496_249_997);
/// # Ok::<(), pardesul::Refusal>(())
/// ```
///
/// # Errors
/// Refuses with 1 to 6, 9 to 11, 20, 13 and 14, in this order.
pub fn forecast_with_delays(
    file: &[u8],
    m: usize,
    method: Method,
    basis: Basis,
    delays: &[i64],
) -> Result<Forecast, Refusal> {
    let (method, basis) = (method as u64, basis as u64);
    Forecast::written(m, |line, entries, leftovers| {
        calls::forecast_with_delays(file, m, method, basis, delays, line, entries, leftovers)
    })
}

impl TriangleSet {
    /// Whether delays from elsewhere are delays of this set, as [`check_delays`] has it of the
    /// set's file.
    ///
    /// ```
    /// use pardesul::{Triangle, TriangleSet};
    ///
    /// let counts = Triangle::from_rows(&[&[80, 20], &[90]]);
    /// let paid = Triangle::from_rows(&[&[600, 400], &[660]]);
    /// let set = TriangleSet { m: 2, line: 5, counts, paid, incurred: None };
    /// assert_eq!(set.check_delays(&[750_000_000, 312_500_000])?, set.line);
    /// assert_eq!(set.check_delays(&[750_000_000, 312_500_001]).unwrap_err().number(), 20);
    /// # Ok::<(), pardesul::Refusal>(())
    /// ```
    ///
    /// # Errors
    /// Refuses with 1, 3, 5, 9 to 11 and 20.
    pub fn check_delays(&self, delays: &[i64]) -> Result<u64, Refusal> {
        check_delays(&self.to_file()?, self.m, delays)
    }

    /// The forecast of this set with delays from elsewhere, as [`forecast_with_delays`] has it of
    /// the set's file.
    ///
    /// ```
    /// use pardesul::{Basis, Method, Triangle, TriangleSet};
    ///
    /// let counts = Triangle::from_rows(&[&[80, 20], &[90]]);
    /// let paid = Triangle::from_rows(&[&[600, 400], &[660]]);
    /// let set = TriangleSet { m: 2, line: 0, counts, paid, incurred: None };
    /// let given = [750_000_000, 312_500_000];
    /// let forecast = set.forecast_with_delays(Method::Dcl, Basis::Estimated, &given)?;
    /// assert_eq!((forecast.rbns(2, 1), forecast.ibnr(2, 1)), (275, 165));
    /// # Ok::<(), pardesul::Refusal>(())
    /// ```
    ///
    /// # Errors
    /// Refuses with 1, 3, 5, 6, 9 to 11, 20, 13 and 14, in this order.
    pub fn forecast_with_delays(
        &self,
        method: Method,
        basis: Basis,
        delays: &[i64],
    ) -> Result<Forecast, Refusal> {
        forecast_with_delays(&self.to_file()?, self.m, method, basis, delays)
    }
}
