//! The claims journal.

use super::records::word;
use crate::plain::JournalTally;

/// The bits of a transaction's first half that are zero: those above claim number 4095 and above
/// kind 1, and those of byte 7.
const SPARE: u64 = 0xff00_00fe_ffff_f000;

/// The largest amount of a transaction, and of a cell of payments.
const MOST: u64 = 10_000_000_000;

/// 1 and 16 to 18, and the tally; a refusal leaves it as it was.
pub fn replay(journal: &[u8], m: usize, tally: &mut JournalTally) -> Result<(), u64> {
    if !(2..=20).contains(&m) {
        return Err(1);
    }
    let (transactions, []) = journal.as_chunks::<16>() else {
        return Err(16);
    };
    if transactions.len() > 4_096 {
        return Err(16);
    }
    let mut new = JournalTally::zero();
    for transaction in transactions {
        let (head, amount) = (word(&transaction[..8]), word(&transaction[8..]));
        let (claim, is_payment) = (head as usize % 4_096, head >> 32 & 1 == 1);
        let [accident, calendar] = [head >> 40, head >> 48].map(|field| usize::from(field as u8));
        let most = if is_payment { MOST } else { 0 };
        // An accident year of 0 wraps to the far end.
        let is_early = accident.wrapping_sub(1) >= calendar;
        if head & SPARE != 0 || is_early || calendar > m || amount > most {
            return Err(16);
        }
        let (year, place) = (&mut new.claims[claim], 19 * accident + calendar - 20);
        let known = if is_payment { accident } else { 0 };
        if usize::from(*year) != known {
            return Err(17);
        }
        if calendar < new.last {
            return Err(18);
        }
        new.last = calendar;
        if is_payment {
            let cell = &mut new.paid[place];
            *cell += amount as i64;
            if *cell > MOST as i64 {
                return Err(18);
            }
        } else {
            // There are never as many reports as a cell takes.
            *year = accident as u8;
            new.counts[place] += 1;
        }
    }
    *tally = new;
    Ok(())
}
