//! The back-test.

use crate::{calls, Basis, Method, Refusal, TriangleSet};

/// How far the forecast of an earlier year was off.
#[derive(Clone, Copy, Debug, PartialEq, Eq)]
pub struct BackTest {
    /// The set's line of cover.
    pub line: u64,
    /// The number of cells compared.
    pub cells: u64,
    /// The sum of the absolute errors of the cells.
    pub cellwise: u64,
    /// The sum of the absolute errors of the calendar years' sums.
    pub yearwise: u64,
    /// The absolute error of the total.
    pub overall: u64,
}

/// Forecasts a file's set without its latest `cut` calendar years, and compares RBNS + IBNR with
/// what was paid in them.
///
/// # Errors
/// Refuses with 1 to 6, 8, and 9 to 14 of the set that is left.
pub fn back_test(
    file: &[u8],
    m: usize,
    method: Method,
    basis: Basis,
    cut: usize,
) -> Result<BackTest, Refusal> {
    let (mut line, mut sums) = (0, [0; 4]);
    Refusal::of(calls::back_test(
        file,
        m,
        method as u64,
        basis as u64,
        cut,
        &mut line,
        &mut sums,
    ))?;
    let [cells, cellwise, yearwise, overall] = sums;
    Ok(BackTest {
        line,
        cells,
        cellwise,
        yearwise,
        overall,
    })
}

impl TriangleSet {
    /// The back-test of this set, as [`back_test`] makes it of the set's file.
    ///
    /// ```
    /// use pardesul::{Basis, Method, Triangle, TriangleSet};
    ///
    /// let counts = Triangle::from_rows(&[&[80, 20, 0], &[90, 25], &[100]]);
    /// let paid = Triangle::from_rows(&[&[600, 400, 50], &[660, 430], &[700]]);
    /// let set = TriangleSet { m: 3, line: 0, counts, paid, incurred: None };
    /// let test = set.back_test(Method::Dcl, Basis::Estimated, 1)?;
    /// assert_eq!(test.cells, 1);
    /// assert_eq!((test.cellwise, test.yearwise, test.overall), (10, 10, 10));
    /// # Ok::<(), pardesul::Refusal>(())
    /// ```
    ///
    /// # Errors
    /// Refuses with 1, 3, 5, 6, 8, and 9 to 14 of the set that is left.
    pub fn back_test(&self, method: Method, basis: Basis, cut: usize) -> Result<BackTest, Refusal> {
        back_test(&self.to_file()?, self.m, method, basis, cut)
    }
}
