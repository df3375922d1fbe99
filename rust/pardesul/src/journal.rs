//! The claims journal.

use crate::{calls, Refusal, Triangle, TriangleSet};

/// The kinds of a transaction.
const REPORTED: u8 = 0;
const PAID: u8 = 1;

/// What a journal comes to: which claims are reported, and reports and money by cell. It is laid
/// out as `pardesul_journal_tally` of the header.
#[derive(Clone, Debug, PartialEq, Eq)]
#[repr(C)]
pub struct JournalTally {
    /// The accident year of each claim, 0 where it is not reported.
    pub claims: [u8; 4096],
    /// Reports by cell: cell (i,j) at 20 × (i-1) + j.
    pub counts: [i64; 400],
    /// Money paid by cell.
    pub paid: [i64; 400],
    /// The last calendar year, 0 where there is no transaction.
    pub last: usize,
}

impl JournalTally {
    /// The tally of no transactions.
    pub fn zero() -> JournalTally {
        JournalTally {
            claims: [0; 4096],
            counts: [0; 400],
            paid: [0; 400],
            last: 0,
        }
    }

    /// The set of m accident years with these counts and payments, and without incurred. A journal
    /// has no line of cover: the set is on line 0, and its `line` may be set afterwards.
    pub fn to_set(&self, m: usize) -> TriangleSet {
        TriangleSet {
            m,
            line: 0,
            counts: Triangle::new(self.counts),
            paid: Triangle::new(self.paid),
            incurred: None,
        }
    }
}

/// The tally of a journal's bytes, 0 to 4096 transactions of 16 each.
///
/// A transaction has a claim number, 0 to 4095, in 4 bytes, least byte first; a byte for its kind,
/// 0 reported or 1 paid; one for the accident year i, one for the calendar year, i to m, and one
/// that is 0; and an amount as a signed 64-bit number, least byte first, of 0 to 10^10, which is 0
/// in a report. Its cell is (i,j), j being the calendar year less i.
///
/// ```
/// use pardesul::{replay, Journal};
///
/// let mut journal = Journal::new();
/// journal.report(17, 1, 2).pay(17, 1, 2, 400);
/// let tally = replay(journal.bytes(), 2)?;
/// assert_eq!((tally.claims[17], tally.counts[1], tally.paid[1], tally.last), (1, 1, 400, 2));
///
/// let refusal = replay(&[0; 17], 2).unwrap_err();
/// assert_eq!(refusal.number(), 16);
/// # Ok::<(), pardesul::Refusal>(())
/// ```
///
/// # Errors
/// Refuses with 1 and 16 to 18.
pub fn replay(journal: &[u8], m: usize) -> Result<JournalTally, Refusal> {
    let mut tally = JournalTally::zero();
    Refusal::of(calls::replay(journal, m, &mut tally))?;
    Ok(tally)
}

/// A claims journal, to which transactions are added one after the other.
///
/// A number is as wide as its bytes in the journal, so that none is cut: what does not fit is
/// turned away by its type, and what fits but is wrong is written as it stands and refused by
/// [`Journal::replay`].
///
/// ```
/// use pardesul::Journal;
///
/// let mut journal = Journal::new();
/// journal.report(17, 1, 1).pay(17, 1, 1, 250).pay(17, 1, 2, 50);
/// assert_eq!(journal.replay(2)?.paid[..2], [250, 50]);
///
/// journal.pay(18, 1, 2, 10);
/// let refusal = journal.replay(2).unwrap_err();
/// assert_eq!(refusal.number(), 17);
/// # Ok::<(), pardesul::Refusal>(())
/// ```
#[derive(Clone, Debug, Default, PartialEq, Eq)]
pub struct Journal {
    bytes: Vec<u8>,
}

impl Journal {
    /// The journal without transactions.
    pub fn new() -> Journal {
        Journal::default()
    }

    /// The journal with these bytes, which may be any; [`Journal::replay`] refuses wrong ones.
    ///
    /// ```
    /// use pardesul::Journal;
    ///
    /// let mut journal = Journal::new();
    /// journal.report(17, 1, 1);
    /// assert_eq!(Journal::from_bytes(journal.bytes()), journal);
    /// assert_eq!(Journal::from_bytes([0; 17]).replay(2).unwrap_err().number(), 16);
    /// ```
    pub fn from_bytes(bytes: impl Into<Vec<u8>>) -> Journal {
        Journal {
            bytes: bytes.into(),
        }
    }

    /// The journal's bytes: 16 for each transaction, as [`replay`] takes them.
    pub fn bytes(&self) -> &[u8] {
        &self.bytes
    }

    /// Adds the report of a claim.
    pub fn report(&mut self, claim: u32, accident_year: u8, calendar_year: u8) -> &mut Journal {
        self.add(claim, [REPORTED, accident_year, calendar_year], 0)
    }

    /// Adds a payment on a claim that was reported under the same accident year.
    pub fn pay(
        &mut self,
        claim: u32,
        accident_year: u8,
        calendar_year: u8,
        amount: i64,
    ) -> &mut Journal {
        self.add(claim, [PAID, accident_year, calendar_year], amount)
    }

    fn add(&mut self, claim: u32, [kind, accident, calendar]: [u8; 3], amount: i64) -> &mut Self {
        self.bytes.extend(claim.to_le_bytes());
        self.bytes.extend([kind, accident, calendar, 0]);
        self.bytes.extend(amount.to_le_bytes());
        self
    }

    /// The tally of this journal, as [`replay`] has it of the bytes.
    ///
    /// # Errors
    /// Refuses with 1 and 16 to 18.
    pub fn replay(&self, m: usize) -> Result<JournalTally, Refusal> {
        replay(&self.bytes, m)
    }

    /// The set of this journal: reports counted and payments added up by cell, without incurred.
    /// It is on line 0, and its `line` may be set afterwards.
    ///
    /// ```
    /// use pardesul::{Journal, Triangle};
    ///
    /// let mut journal = Journal::new();
    /// journal.report(17, 1, 1).report(18, 1, 1).pay(18, 1, 2, 400).report(19, 2, 2);
    /// let mut set = journal.to_set(2)?;
    /// assert_eq!(set.counts, Triangle::from_rows(&[&[2, 0], &[1]]));
    /// assert_eq!(set.paid, Triangle::from_rows(&[&[0, 400], &[0]]));
    /// assert_eq!((set.line, &set.incurred), (0, &None));
    ///
    /// set.line = 5;
    /// assert_eq!(set.to_file()?[3], 5);
    /// # Ok::<(), pardesul::Refusal>(())
    /// ```
    ///
    /// # Errors
    /// Refuses with 1 and 16 to 18.
    pub fn to_set(&self, m: usize) -> Result<TriangleSet, Refusal> {
        Ok(self.replay(m)?.to_set(m))
    }
}
