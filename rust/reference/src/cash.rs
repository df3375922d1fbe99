//! 02, Job 5: cash by dates.

use crate::big::Big;
use crate::calendar::Tally;
use crate::dates::Date;
use crate::forecast::{forecast_set, question_6};
use crate::halves::Quotient::Due;
use crate::records::{read_set, Refusal};
use crate::rounding::r;

/// A valuation date, and the start and the end of a window.
#[derive(Clone, Copy, Debug, PartialEq, Eq)]
pub struct Window {
    pub valuation: Date,
    pub start: Date,
    pub end: Date,
}

impl Window {
    /// The three dates as they stand in the arguments.
    pub fn dates(&self) -> [Date; 3] {
        [self.valuation, self.start, self.end]
    }
}

/// What falls due in a window, with the line of the set.
#[derive(Clone, Copy, Debug, PartialEq, Eq)]
pub struct Cash {
    pub line: u64,
    pub amount: i64,
}

/// RBNS + IBNR of each forecast year, year 1 first, with the line of the set.
pub struct ForecastYears {
    pub line: u64,
    totals: Vec<Big>,
}

/// What falls due in a window: questions 1 to 6, 9 to 14, and 19.
pub fn cash_in_window(
    file: &[u8],
    m: u64,
    method: u64,
    basis: u64,
    window: &Window,
) -> Result<Cash, Refusal> {
    let years = forecast_years(file, m, method, basis)?;
    Ok(Cash {
        line: years.line,
        amount: years.cash(window)?,
    })
}

/// The forecast years of a file: questions 1 to 6 and 9 to 14.
pub fn forecast_years(
    file: &[u8],
    m: u64,
    method: u64,
    basis: u64,
) -> Result<ForecastYears, Refusal> {
    let set = read_set(file, m)?;
    question_6(&set, method, basis)?;
    let forecast = forecast_set(&set, method, basis)?;
    let tally = Tally::of_entries(&forecast.entries, set.m);
    Ok(ForecastYears {
        line: set.line,
        ..ForecastYears::of(&tally, set.m)
    })
}

impl ForecastYears {
    /// Those of the tally of m accident years: 2m - 2. A tally has no line; they are on line 0.
    pub fn of(tally: &Tally, m: usize) -> ForecastYears {
        let sums = tally.rbns.iter().zip(&tally.ibnr);
        let totals = sums.map(|(&rbns, &ibnr)| Big::from(rbns) + Big::from(ibnr));
        ForecastYears {
            line: 0,
            totals: totals.take(2 * m - 2).collect(),
        }
    }

    /// Question 19, and the amount of the window.
    pub fn cash(&self, window: &Window) -> Result<i64, Refusal> {
        let Window {
            valuation,
            start,
            end,
        } = window;
        if !window.dates().into_iter().all(Date::exists) {
            return Err(19);
        }
        if !(1900..=2199).contains(&valuation.year) {
            return Err(19);
        }
        let years = self.totals.len() as u64;
        let anniversaries: Vec<i128> = (0..=years)
            .map(|t| valuation.anniversary(t).number())
            .collect();
        let (first, past) = (anniversaries[0], anniversaries[years as usize]);
        let (start, end) = (start.number(), end.number());
        if start < first || start >= past || end < start || end > past {
            return Err(19);
        }
        let amount = self.due(&anniversaries, end) - self.due(&anniversaries, start);
        Ok(amount.to_i64().expect("an amount of 64 bits"))
    }

    /// What is due before a day: the years that are over, and of the one that is not the part of
    /// its days that have passed, all of it rounded once.
    fn due(&self, anniversaries: &[i128], day: i128) -> Big {
        let mut due = Big::zero();
        for (total, year) in self.totals.iter().zip(anniversaries.windows(2)) {
            let (first, next) = (year[0], year[1]);
            if day < next {
                let [days, passed] = [next - first, day - first].map(Big::from);
                return r(Due, &(due * &days + total * passed), &days);
            }
            due = due + total;
        }
        due
    }
}
