//! The forecast.

use crate::{calls, Refusal, Tally, TriangleSet};

/// What the rows are based on; [`TryFrom`] takes the method's number, 0 to 2.
///
/// ```
/// use pardesul::Method;
///
/// assert_eq!(Method::try_from(2), Ok(Method::Idcl));
/// assert_eq!(Method::try_from(3).unwrap_err().number(), 6);
/// ```
#[derive(Clone, Copy, Debug, PartialEq, Eq)]
pub enum Method {
    /// Double chain ladder: paid ultimates.
    Dcl = 0,
    /// Bornhuetter-Ferguson double chain ladder: paid ultimates with the inflation of incurred.
    Bdcl = 1,
    /// Incurred double chain ladder: paid ultimates with the reserves of incurred.
    Idcl = 2,
}

/// The counts behind the RBNS cells; [`TryFrom`] takes the basis's number, 0 or 1.
///
/// ```
/// use pardesul::Basis;
///
/// assert_eq!(Basis::try_from(1), Ok(Basis::Estimated));
/// assert_eq!(Basis::try_from(2).unwrap_err().number(), 6);
/// ```
#[derive(Clone, Copy, Debug, PartialEq, Eq)]
pub enum Basis {
    /// The counts of the set.
    Actual = 0,
    /// The counts that the chain ladder expects.
    Estimated = 1,
}

impl TryFrom<u64> for Method {
    type Error = Refusal;

    fn try_from(number: u64) -> Result<Method, Refusal> {
        match number {
            0 => Ok(Method::Dcl),
            1 => Ok(Method::Bdcl),
            2 => Ok(Method::Idcl),
            _ => Err(Refusal::METHOD),
        }
    }
}

impl TryFrom<u64> for Basis {
    type Error = Refusal;

    fn try_from(number: u64) -> Result<Basis, Refusal> {
        match number {
            0 => Ok(Basis::Actual),
            1 => Ok(Basis::Estimated),
            _ => Err(Refusal::METHOD),
        }
    }
}

/// The forecast of a file by accident year and delay.
#[derive(Clone, Debug, PartialEq, Eq)]
pub struct Forecast {
    /// The set's line of cover.
    pub line: u64,
    m: usize,
    entries: Vec<i64>,
    /// What [`Method::Idcl`] leaves over, year 1 first: zero but for a year whose paid reserve is
    /// zero.
    pub leftovers: Vec<i64>,
}

impl Forecast {
    /// What a call writes of m years: the line, the entries and the leftovers.
    pub(crate) fn written(
        m: usize,
        call: impl FnOnce(&mut u64, &mut [i64], &mut [i64; 20]) -> u64,
    ) -> Result<Forecast, Refusal> {
        let (mut line, mut entries, mut leftovers) = (0, vec![0; 1_560], [0; 20]);
        Refusal::of(call(&mut line, &mut entries, &mut leftovers))?;
        entries.truncate(2 * m * (2 * m - 1));
        Ok(Forecast {
            line,
            m,
            entries,
            leftovers: leftovers[..m].to_vec(),
        })
    }

    /// Reported but not settled, of accident year `year` from 1 on at `delay` from 0 on.
    ///
    /// # Panics
    /// Where the year is not 1 to m or the delay not 0 to 2m - 2.
    pub fn rbns(&self, year: usize, delay: usize) -> i64 {
        self.entries[self.place(year, delay)]
    }

    /// Incurred but not reported.
    ///
    /// # Panics
    /// As [`Forecast::rbns`] does.
    pub fn ibnr(&self, year: usize, delay: usize) -> i64 {
        self.entries[self.place(year, delay) + 1]
    }

    /// All entries: RBNS of year i at delay j at 2 × ((i-1) × (2m-1) + j), and IBNR after it.
    pub fn entries(&self) -> &[i64] {
        &self.entries
    }

    /// The sums by calendar year.
    pub fn tally(&self) -> Tally {
        let mut tally = Tally::zero();
        for year in 1..=self.m {
            for delay in self.m - year + 1..=2 * self.m - 2 {
                let calendar_year = (year + delay - self.m) as u64;
                tally = tally.add(
                    calendar_year,
                    self.rbns(year, delay),
                    self.ibnr(year, delay),
                );
            }
        }
        tally
    }

    fn place(&self, year: usize, delay: usize) -> usize {
        let width = 2 * self.m - 1;
        assert!(
            (1..=self.m).contains(&year) && delay < width,
            "accident year {year}, delay {delay}"
        );
        2 * ((year - 1) * width + delay)
    }
}

/// The forecast of a file.
///
/// # Errors
/// Refuses with 1 to 6 and 9 to 14.
pub fn forecast(file: &[u8], m: usize, method: Method, basis: Basis) -> Result<Forecast, Refusal> {
    let (method, basis) = (method as u64, basis as u64);
    Forecast::written(m, |line, entries, leftovers| {
        calls::forecast(file, m, method, basis, line, entries, leftovers)
    })
}

impl TriangleSet {
    /// The forecast of this set, as [`forecast`] has it of the set's file.
    ///
    /// ```
    /// use pardesul::{Basis, Method, Triangle, TriangleSet};
    ///
    /// let counts = Triangle::from_rows(&[&[80, 20], &[90]]);
    /// let paid = Triangle::from_rows(&[&[600, 400], &[660]]);
    /// let set = TriangleSet { m: 2, line: 5, counts, paid, incurred: None };
    /// let forecast = set.forecast(Method::Dcl, Basis::Estimated)?;
    /// assert_eq!((forecast.rbns(2, 1), forecast.ibnr(2, 1)), (275, 165));
    /// assert_eq!(forecast.line, 5);
    /// assert_eq!(set.forecast(Method::Bdcl, Basis::Estimated).unwrap_err().number(), 6);
    /// # Ok::<(), pardesul::Refusal>(())
    /// ```
    ///
    /// # Errors
    /// Refuses with 1, 3, 5, 6 and 9 to 14.
    pub fn forecast(&self, method: Method, basis: Basis) -> Result<Forecast, Refusal> {
        forecast(&self.to_file()?, self.m, method, basis)
    }
}
