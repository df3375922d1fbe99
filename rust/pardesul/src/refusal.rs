//! Refusals.

use std::error::Error;
use std::fmt;

/// What is wrong where question n gets a no, at place n - 1. The header and README.md say the same,
/// which a test holds.
const MESSAGES: [&str; 20] = [
    "m is not 2 to 20",
    "the length is not that of a set",
    "a record has a kind that the length does not allow, a cell outside the triangle, a line of \
     cover that is above 5 or not the first record's, or a byte 4 to 7 that is not 0; or the line \
     to be written is above 5",
    "a cell is missing or stands there more than once",
    "a value is out of range: counts 0 to 10^7, paid 0 to 10^10, incurred -10^10 to 10^10",
    "there is no such method or basis, or the method needs incurred and there is none",
    "the output is too short",
    "the back-test's cut is not 1 to m - 2",
    "a row has no count above zero",
    "a paid B(j) is zero",
    "g(0) of counts or of paid is below 10^6",
    "a delay is outside -8 × 10^9 to 8 × 10^9",
    "an incurred A(j) or B(j) is not above zero, a latest incurred row sum is negative, or an \
     incurred g(j) is outside 10^6 to 4 × 10^9",
    "a row base is outside -2 × 10^14 to 2 × 10^14",
    "the page is shorter than 136 × m bytes",
    "the journal's length is not 0 to 4096 whole transactions, or a transaction has a bad field",
    "a claim is reported twice, paid before it is reported, or paid under another accident year",
    "a calendar year is below the one before it, or a cell leaves its range",
    "a date is impossible, the valuation date is not of the years 1900 to 2199, or the window ends \
     before it starts or leaves the forecast years",
    "the given delays are not m in number, one is outside -8 × 10^9 to 8 × 10^9, or a sum of \
     b(k) × p(l-k), k from 0 to l, is more than b(0) / 2 away from 10^9 × q(l)",
];

/// The first question that got a no: its number and what is wrong.
///
/// ```
/// use pardesul::TriangleSet;
///
/// let refusal = TriangleSet::read(&[], 2).unwrap_err();
/// assert_eq!(refusal.number(), 2);
/// assert_eq!(refusal.to_string(), "refused 2: the length is not that of a set");
/// assert_eq!(format!("{refusal:?}"), refusal.to_string());
/// ```
#[derive(Clone, Copy, PartialEq, Eq, Hash)]
pub struct Refusal(u64);

impl Refusal {
    /// No such method or basis.
    pub(crate) const METHOD: Refusal = Refusal(6);

    /// No such date.
    pub(crate) const DATE: Refusal = Refusal(19);

    /// Every refusal, in the order of their numbers.
    pub fn all() -> impl Iterator<Item = Refusal> {
        (1..=MESSAGES.len() as u64).map(Refusal)
    }

    /// What a call that answered with this number says.
    pub(crate) fn of(number: u64) -> Result<(), Refusal> {
        match number {
            0 => Ok(()),
            _ => Err(Refusal(number)),
        }
    }

    /// The question's number, 1 to 20.
    pub fn number(self) -> u64 {
        self.0
    }

    /// What is wrong, in words.
    pub fn message(self) -> &'static str {
        MESSAGES[self.0 as usize - 1]
    }
}

impl fmt::Display for Refusal {
    fn fmt(&self, f: &mut fmt::Formatter) -> fmt::Result {
        write!(f, "refused {}: {}", self.number(), self.message())
    }
}

/// The same words, which a program prints whose main function ends with the refusal.
impl fmt::Debug for Refusal {
    fn fmt(&self, f: &mut fmt::Formatter) -> fmt::Result {
        fmt::Display::fmt(self, f)
    }
}

impl Error for Refusal {}
