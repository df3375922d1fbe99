//! The closing page.

use crate::{calls, Basis, Method, Refusal, TriangleSet};

/// The bytes of the longest page.
const LONGEST: usize = 136 * 20;

/// The closing page of a file: the forecast in columns, with the numbers that [`respond`] has. It
/// is the same on every line of cover.
///
/// It has 2m lines of 67 characters and a newline: a heading, the calendar years 1 to 2m - 2, and
/// the totals. A line is a year, 4 wide, and RBNS, IBNR and their sum, 21 wide each, all
/// right-aligned with spaces.
///
/// ```
/// use pardesul::{closing_page, Basis, Method, Triangle, TriangleSet};
///
/// let counts = Triangle::from_rows(&[&[25, 75], &[50]]);
/// let paid = Triangle::from_rows(&[&[750, 250], &[750]]);
/// let file = TriangleSet { m: 2, line: 0, counts, paid, incurred: None }.to_file()?;
/// let page = closing_page(&file, 2, Method::Dcl, Basis::Estimated)?;
/// let totals = " ALL                -8000                -3750               -11750";
/// assert_eq!(page.lines().next_back(), Some(totals));
/// # Ok::<(), pardesul::Refusal>(())
/// ```
///
/// [`respond`]: crate::respond
///
/// # Errors
/// Refuses with 1 to 6 and 9 to 14.
pub fn closing_page(
    file: &[u8],
    m: usize,
    method: Method,
    basis: Basis,
) -> Result<String, Refusal> {
    let mut page = vec![0; LONGEST];
    Refusal::of(calls::closing_page(
        file,
        m,
        method as u64,
        basis as u64,
        &mut page,
    ))?;
    page.truncate(136 * m);
    Ok(String::from_utf8(page).expect("a page is ASCII"))
}

impl TriangleSet {
    /// The closing page of this set, as [`closing_page`] has it of the set's file.
    ///
    /// ```
    /// use pardesul::{Basis, Method, Triangle, TriangleSet};
    ///
    /// let counts = Triangle::from_rows(&[&[80, 20], &[90]]);
    /// let paid = Triangle::from_rows(&[&[600, 400], &[660]]);
    /// let set = TriangleSet { m: 2, line: 0, counts, paid, incurred: None };
    /// let page = "\
    /// YEAR                 RBNS                 IBNR                TOTAL
    ///    1                  337                  165                  502
    ///    2                    0                   69                   69
    ///  ALL                  337                  234                  571
    /// ";
    /// assert_eq!(set.closing_page(Method::Dcl, Basis::Estimated)?, page);
    /// assert_eq!(set.closing_page(Method::Bdcl, Basis::Estimated).unwrap_err().number(), 6);
    /// # Ok::<(), pardesul::Refusal>(())
    /// ```
    ///
    /// # Errors
    /// Refuses with 1, 3, 5, 6 and 9 to 14.
    pub fn closing_page(&self, method: Method, basis: Basis) -> Result<String, Refusal> {
        closing_page(&self.to_file()?, self.m, method, basis)
    }
}
