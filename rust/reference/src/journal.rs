//! 02, Job 3: the claims journal. Each question is put to the list of transactions as a whole, and
//! each cell is counted or added up over the whole list; nothing is carried from one transaction to
//! the next.

use crate::records::{cells, place, question_1, range, Refusal, Values};

/// The bytes of a transaction.
pub const TRANSACTION: usize = 16;

/// The most transactions of a journal.
pub const MOST: usize = 4_096;

/// How many claim numbers there are, from 0 on.
pub const CLAIMS: usize = 4_096;

/// The largest amount of a transaction.
pub const MOST_AMOUNT: i64 = 10_000_000_000;

/// Kinds of transactions.
pub const REPORTED: u8 = 0;
pub const PAID: u8 = 1;

/// What a journal comes to.
#[derive(Clone, Debug, PartialEq, Eq)]
pub struct JournalTally {
    /// The accident year of each claim, 0 where it is not reported.
    pub claims: [u8; CLAIMS],
    /// Reports by cell.
    pub counts: Values,
    /// Money paid by cell.
    pub paid: Values,
    /// The last calendar year, 0 where there is no transaction.
    pub last: usize,
}

/// One transaction, each field as wide as its bytes.
#[derive(Clone, Copy, Debug, PartialEq, Eq)]
pub struct Transaction {
    pub claim: u32,
    pub kind: u8,
    pub accident_year: u8,
    pub calendar_year: u8,
    pub zero: u8,
    pub amount: i64,
}

impl Transaction {
    pub fn report(claim: u32, accident_year: u8, calendar_year: u8) -> Transaction {
        Transaction {
            claim,
            kind: REPORTED,
            accident_year,
            calendar_year,
            zero: 0,
            amount: 0,
        }
    }

    pub fn payment(claim: u32, accident_year: u8, calendar_year: u8, amount: i64) -> Transaction {
        Transaction {
            kind: PAID,
            amount,
            ..Transaction::report(claim, accident_year, calendar_year)
        }
    }

    pub fn read(bytes: &[u8]) -> Transaction {
        Transaction {
            claim: u32::from_le_bytes(bytes[..4].try_into().unwrap()),
            kind: bytes[4],
            accident_year: bytes[5],
            calendar_year: bytes[6],
            zero: bytes[7],
            amount: i64::from_le_bytes(bytes[8..16].try_into().unwrap()),
        }
    }

    pub fn bytes(&self) -> [u8; TRANSACTION] {
        let mut bytes = [0; TRANSACTION];
        bytes[..4].copy_from_slice(&self.claim.to_le_bytes());
        bytes[4] = self.kind;
        bytes[5] = self.accident_year;
        bytes[6] = self.calendar_year;
        bytes[7] = self.zero;
        bytes[8..].copy_from_slice(&self.amount.to_le_bytes());
        bytes
    }

    /// Whether every field is good.
    fn is_well_formed(&self, m: usize) -> bool {
        let amounts = match self.kind {
            REPORTED => 0..=0,
            PAID => 0..=MOST_AMOUNT,
            _ => return false,
        };
        let (accident, calendar) = (self.accident_year, usize::from(self.calendar_year));
        (self.claim as usize) < CLAIMS
            && accident >= 1
            && (usize::from(accident)..=m).contains(&calendar)
            && self.zero == 0
            && amounts.contains(&self.amount)
    }

    /// The cell of a well-formed transaction.
    pub fn cell(&self) -> (usize, usize) {
        let delay = self.calendar_year - self.accident_year;
        (usize::from(self.accident_year), usize::from(delay))
    }

    /// What the cell gets: one for a report, the amount for a payment.
    fn worth(&self) -> i64 {
        match self.kind {
            REPORTED => 1,
            _ => self.amount,
        }
    }
}

/// The bytes of these transactions.
pub fn journal(transactions: &[Transaction]) -> Vec<u8> {
    let bytes = transactions.iter().flat_map(Transaction::bytes);
    bytes.collect()
}

/// The tally of a journal: 1 for m, then 16 for the length, then 16 to 18 for each transaction in
/// the order of the file.
pub fn replay(journal: &[u8], m: u64) -> Result<JournalTally, Refusal> {
    let m = question_1(m)?;
    if !journal.len().is_multiple_of(TRANSACTION) || journal.len() / TRANSACTION > MOST {
        return Err(16);
    }
    let list: Vec<Transaction> = journal
        .chunks_exact(TRANSACTION)
        .map(Transaction::read)
        .collect();
    let refused = (0..list.len()).find_map(|at| refusal(&list[..at], &list[at], m));
    match refused {
        Some(refusal) => Err(refusal),
        None => Ok(tally(&list, m)),
    }
}

/// The lowest number that refuses a transaction, where none of those before it is refused.
fn refusal(before: &[Transaction], next: &Transaction, m: usize) -> Option<Refusal> {
    if !next.is_well_formed(m) {
        return Some(16);
    }
    let report = before
        .iter()
        .find(|earlier| earlier.kind == REPORTED && earlier.claim == next.claim);
    let claim_fits = match (next.kind, report) {
        (REPORTED, earlier) => earlier.is_none(),
        (_, Some(report)) => report.accident_year == next.accident_year,
        (_, None) => false,
    };
    if !claim_fits {
        return Some(17);
    }
    let goes_back = before
        .last()
        .is_some_and(|last| next.calendar_year < last.calendar_year);
    let value: i64 = of_cell(before, next.kind, next.cell()).sum();
    if goes_back || !range(next.kind).contains(&(value + next.worth())) {
        return Some(18);
    }
    None
}

/// What the transactions of a kind bring to a cell. There are 4096 at most, of 10^10 at most each,
/// so that every sum fits 64 bits.
fn of_cell(list: &[Transaction], kind: u8, cell: (usize, usize)) -> impl Iterator<Item = i64> + '_ {
    list.iter()
        .filter(move |transaction| transaction.kind == kind && transaction.cell() == cell)
        .map(Transaction::worth)
}

/// The tally of transactions of which none is refused: no claim is reported twice.
fn tally(list: &[Transaction], m: usize) -> JournalTally {
    let mut claims = [0; CLAIMS];
    for report in list.iter().filter(|each| each.kind == REPORTED) {
        claims[report.claim as usize] = report.accident_year;
    }
    JournalTally {
        claims,
        counts: triangle(list, REPORTED, m),
        paid: triangle(list, PAID, m),
        last: list.last().map_or(0, |last| last.calendar_year.into()),
    }
}

/// The triangle of a kind, cell by cell.
fn triangle(list: &[Transaction], kind: u8, m: usize) -> Values {
    let mut values = [0; 400];
    for (i, j) in cells(m) {
        values[place(i, j)] = of_cell(list, kind, (i, j)).sum();
    }
    values
}
