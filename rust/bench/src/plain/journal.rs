//! The claims journal.

use super::records::RANGES;

/// What a journal comes to: accident years by claim, 0 where one is not reported; reports and money
/// by cell; and the last calendar year.
#[derive(Debug, PartialEq, Eq)]
pub struct JournalTally {
    pub claims: [u8; 4_096],
    pub counts: [i64; 400],
    pub paid: [i64; 400],
    pub last: usize,
}

impl JournalTally {
    pub fn zero() -> JournalTally {
        JournalTally {
            claims: [0; 4_096],
            counts: [0; 400],
            paid: [0; 400],
            last: 0,
        }
    }
}

struct Transaction {
    claim: usize,
    kind: u8,
    accident: u8,
    calendar: u8,
    zero: u8,
    amount: i64,
}

impl Transaction {
    fn read(bytes: &[u8]) -> Transaction {
        Transaction {
            claim: u32::from_le_bytes(bytes[..4].try_into().unwrap()) as usize,
            kind: bytes[4],
            accident: bytes[5],
            calendar: bytes[6],
            zero: bytes[7],
            amount: i64::from_le_bytes(bytes[8..16].try_into().unwrap()),
        }
    }

    fn is_well_formed(&self, m: usize) -> bool {
        let most = if self.kind == 0 { 0 } else { 10_000_000_000 };
        self.claim < 4_096
            && self.kind <= 1
            && (1..=self.calendar).contains(&self.accident)
            && usize::from(self.calendar) <= m
            && self.zero == 0
            && (0..=most).contains(&self.amount)
    }

    fn place(&self) -> usize {
        20 * (usize::from(self.accident) - 1) + usize::from(self.calendar - self.accident)
    }
}

impl JournalTally {
    /// Brings the tally up to date, or says what refuses the transaction.
    fn book(&mut self, next: &Transaction, m: usize) -> Result<(), u64> {
        if !next.is_well_formed(m) {
            return Err(16);
        }
        let claim = &mut self.claims[next.claim];
        let wanted = if next.kind == 0 { 0 } else { next.accident };
        if *claim != wanted {
            return Err(17);
        }
        let (cell, more) = match next.kind {
            0 => (&mut self.counts[next.place()], 1),
            _ => (&mut self.paid[next.place()], next.amount),
        };
        let calendar = usize::from(next.calendar);
        if calendar < self.last || !RANGES[usize::from(next.kind)].contains(&(*cell + more)) {
            return Err(18);
        }
        *claim = next.accident;
        *cell += more;
        self.last = calendar;
        Ok(())
    }
}

/// 1 and 16 to 18, and the tally.
pub fn replay(journal: &[u8], m: usize) -> Result<JournalTally, u64> {
    if !(2..=20).contains(&m) {
        return Err(1);
    }
    if !journal.len().is_multiple_of(16) || journal.len() > 16 * 4_096 {
        return Err(16);
    }
    let mut tally = JournalTally::zero();
    for bytes in journal.chunks_exact(16) {
        tally.book(&Transaction::read(bytes), m)?;
    }
    Ok(tally)
}
