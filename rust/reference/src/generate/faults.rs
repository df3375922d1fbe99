//! Transactions that a replay refuses.

use super::random::Random;
use crate::journal::{Transaction, CLAIMS, MOST_AMOUNT, PAID, REPORTED};
use crate::records::{place, Refusal, Values};
use Fault::{
    AccidentYear, Amount, CalendarYear, Claim, Earlier, Kind, OtherYear, Overfull, ReportAmount,
    Twice, Unreported, ZeroByte,
};

/// What is wrong with a transaction.
#[derive(Clone, Copy, Debug, PartialEq, Eq, PartialOrd, Ord)]
pub enum Fault {
    /// A claim number above 4095.
    Claim,
    /// A kind above 1.
    Kind,
    /// An accident year that is not 1 to m.
    AccidentYear,
    /// A calendar year above m or before the accident year.
    CalendarYear,
    /// A byte 7 that is not zero.
    ZeroByte,
    /// A payment outside 0 to 10^10.
    Amount,
    /// A report with an amount.
    ReportAmount,
    /// A claim that is reported a second time.
    Twice,
    /// A payment on a claim that is not reported.
    Unreported,
    /// A payment under another accident year than the claim's.
    OtherYear,
    /// A calendar year below the one before.
    Earlier,
    /// A payment that takes its cell out of its range.
    Overfull,
}

/// Faults of one transaction, of which the first has to be told.
pub const PAIRS: [[Fault; 2]; 22] = [
    [AccidentYear, Twice],
    [CalendarYear, Twice],
    [ZeroByte, Twice],
    [ReportAmount, Twice],
    [ZeroByte, Unreported],
    [Amount, Unreported],
    [AccidentYear, OtherYear],
    [CalendarYear, OtherYear],
    [ZeroByte, OtherYear],
    [Amount, OtherYear],
    [Claim, Earlier],
    [Kind, Earlier],
    [ZeroByte, Earlier],
    [Claim, Overfull],
    [Kind, Overfull],
    [ZeroByte, Overfull],
    [Twice, Earlier],
    [Unreported, Earlier],
    [OtherYear, Earlier],
    [Unreported, Overfull],
    [OtherYear, Overfull],
    [Earlier, Overfull],
];

impl Fault {
    pub const ALL: [Fault; 12] = [
        Claim,
        Kind,
        AccidentYear,
        CalendarYear,
        ZeroByte,
        Amount,
        ReportAmount,
        Twice,
        Unreported,
        OtherYear,
        Earlier,
        Overfull,
    ];

    /// The number that refuses it.
    pub fn refusal(self) -> Refusal {
        match self {
            Claim | Kind | AccidentYear | CalendarYear | ZeroByte | Amount | ReportAmount => 16,
            Twice | Unreported | OtherYear => 17,
            Earlier | Overfull => 18,
        }
    }

    /// Whether it is a fault only beside transactions before it.
    pub fn needs_others(self) -> bool {
        matches!(self, Twice | OtherYear | Earlier | Overfull)
    }
}

/// A transaction with these faults and no other of 17 or 18, behind those before it and in place of
/// a valid one; none where that cannot be.
pub fn faulty(
    random: &mut Random,
    before: &[Transaction],
    valid: Transaction,
    m: usize,
    faults: &[Fault],
) -> Option<Transaction> {
    let mut made = match faults.iter().all(|fault| fault.refusal() == 16) {
        true => valid,
        false => misplaced(random, before, valid.calendar_year, faults)?,
    };
    for &fault in faults {
        spoil(random, &mut made, m as u8, fault);
    }
    Some(made)
}

/// Spoils a field, for a fault that is one of a field.
fn spoil(random: &mut Random, made: &mut Transaction, m: u8, fault: Fault) {
    match fault {
        Claim => {
            let bits = random.pick(&[1 << 12, 1 << 13, 1 << 16, 1 << 24, 1 << 31]);
            made.claim = random.pick(&[made.claim | bits, 4_096, u32::MAX]);
        }
        Kind => made.kind = random.pick(&[2, 3, 128, 255]),
        AccidentYear => made.accident_year = random.pick(&[0, m + 1, 128, 255]),
        CalendarYear => {
            made.calendar_year = random.pick(&[m + 1, 128, 255, made.accident_year - 1])
        }
        ZeroByte => made.zero = random.pick(&[1, 128, 255]),
        Amount => {
            made.kind = PAID;
            made.amount = random.pick(&[-1, MOST_AMOUNT + 1, 1 << 40, i64::MAX, i64::MIN]);
        }
        ReportAmount => {
            made.kind = REPORTED;
            made.amount = random.pick(&[1, MOST_AMOUNT, 1 << 40, -1, i64::MIN]);
        }
        Twice | Unreported | OtherYear | Earlier | Overfull => {}
    }
}

/// What transactions leave, by claim and by cell.
struct Books {
    /// Reported claims and their accident years.
    reported: Vec<(u32, u8)>,
    /// Payments by cell.
    paid: Values,
}

impl Books {
    fn of(list: &[Transaction]) -> Books {
        let mut books = Books {
            reported: Vec::new(),
            paid: [0; 400],
        };
        for transaction in list {
            let (i, j) = transaction.cell();
            match transaction.kind {
                REPORTED => {
                    let report = (transaction.claim, transaction.accident_year);
                    books.reported.push(report);
                }
                _ => books.paid[place(i, j)] += transaction.amount,
            }
        }
        books
    }

    fn any_reported(&self, random: &mut Random) -> Option<(u32, u8)> {
        (!self.reported.is_empty()).then(|| random.pick(&self.reported))
    }

    fn any_unreported(&self, random: &mut Random) -> Option<u32> {
        let mut free = [true; CLAIMS];
        for &(claim, _) in &self.reported {
            free[claim as usize] = false;
        }
        let start = random.below(CLAIMS);
        let claims = (start..CLAIMS).chain(0..start);
        claims
            .map(|claim| claim as u32)
            .find(|&claim| free[claim as usize])
    }

    /// How much more a cell takes.
    fn room(&self, accident_year: u8, calendar_year: u8) -> i64 {
        let delay = calendar_year - accident_year;
        MOST_AMOUNT - self.paid[place(accident_year.into(), delay.into())]
    }
}

/// A transaction with the faults that are of 17 and 18, all of its fields good.
fn misplaced(
    random: &mut Random,
    before: &[Transaction],
    calendar_year: u8,
    faults: &[Fault],
) -> Option<Transaction> {
    let has = |fault| faults.contains(&fault);
    let books = Books::of(before);
    let calendar_year = match before.last() {
        Some(last) if has(Earlier) && last.calendar_year > 1 => {
            random.between(1, i64::from(last.calendar_year) - 1) as u8
        }
        _ if has(Earlier) => return None,
        _ => calendar_year,
    };
    let is_report = has(Twice) || faults == [Earlier] && random.one_in(2);
    let any_year = 1..=calendar_year;
    let (claim, mut years): (u32, Vec<u8>) = if has(Unreported) || is_report && !has(Twice) {
        (books.any_unreported(random)?, any_year.collect())
    } else {
        let (claim, own) = books.any_reported(random)?;
        let fits = |&year: &u8| has(Twice) || (year == own) != has(OtherYear);
        (claim, any_year.filter(fits).collect())
    };
    if has(Overfull) {
        years.retain(|&year| books.room(year, calendar_year) < MOST_AMOUNT);
    }
    if years.is_empty() {
        return None;
    }
    let year = random.pick(&years);
    if is_report {
        return Some(Transaction::report(claim, year, calendar_year));
    }
    let room = books.room(year, calendar_year);
    let amount = match has(Overfull) {
        true => {
            let any = random.between(room + 1, MOST_AMOUNT);
            random.pick(&[room + 1, room + 1, MOST_AMOUNT, any])
        }
        false => {
            let any = random.between(0, room);
            random.pick(&[0, room, any])
        }
    };
    Some(Transaction::payment(claim, year, calendar_year, amount))
}
