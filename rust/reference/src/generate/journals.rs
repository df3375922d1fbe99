//! Claims journals: valid ones of many shapes, and the cases that are made of them.

use super::faults::{faulty, Fault, PAIRS};
use super::random::Random;
use crate::journal::{journal, Transaction, CLAIMS, MOST, MOST_AMOUNT};
use crate::records::{place, Refusal, Values};

/// The arguments of a replay, and what was done to a valid journal.
#[derive(Clone, Debug)]
pub struct JournalCase {
    pub m: u64,
    pub journal: Vec<u8>,
    pub made: Made,
}

/// What was done to a valid journal.
#[derive(Clone, Debug, PartialEq, Eq, PartialOrd, Ord)]
pub enum Made {
    Valid,
    /// One transaction has these faults.
    Faulty(Vec<Fault>, Spot),
    /// Two transactions have a fault, the earlier one the first.
    TwoFaulty(Fault, Fault),
    /// The length is not that of a journal, and a transaction may have a fault.
    WrongLength,
    /// There is no such m, and anything else may be wrong.
    WrongM,
}

impl Made {
    /// The number that has to refuse the journal, if any.
    pub fn refusal(&self) -> Option<Refusal> {
        match self {
            Made::Valid => None,
            Made::Faulty(faults, _) => faults.iter().map(|fault| fault.refusal()).min(),
            Made::TwoFaulty(first, _) => Some(first.refusal()),
            Made::WrongLength => Some(16),
            Made::WrongM => Some(1),
        }
    }
}

/// Where a faulty transaction stands.
#[derive(Clone, Copy, Debug, PartialEq, Eq, PartialOrd, Ord)]
pub enum Spot {
    First,
    Middle,
    Last,
}

impl Spot {
    /// Its place among so many transactions, if there is one that is no other spot as well.
    fn place(self, random: &mut Random, length: usize) -> Option<usize> {
        match self {
            Spot::First => (length > 1).then_some(0),
            Spot::Middle => (length > 2).then(|| 1 + random.below(length - 2)),
            Spot::Last => (length > 1).then(|| length - 1),
        }
    }
}

/// The journal of a seed.
pub fn journal_case(seed: u64) -> JournalCase {
    let mut random = Random::new(seed);
    match random.below(12) {
        0..=4 => {
            let (m, list) = any(&mut random);
            case(m, &list, Made::Valid)
        }
        5..=7 => {
            let fault = random.pick(&Fault::ALL);
            one_faulty(&mut random, &[fault])
        }
        8 => {
            let pair = random.pick(&PAIRS);
            one_faulty(&mut random, &pair)
        }
        9 => two_faulty(&mut random),
        10 => wrong_length(&mut random),
        _ => wrong_m(&mut random),
    }
}

fn case(m: usize, list: &[Transaction], made: Made) -> JournalCase {
    JournalCase {
        m: m as u64,
        journal: journal(list),
        made,
    }
}

/// A journal with these faults in one transaction.
fn one_faulty(random: &mut Random, faults: &[Fault]) -> JournalCase {
    let spots = match faults.iter().any(|fault| fault.needs_others()) {
        true => &[Spot::Middle, Spot::Last][..],
        false => &[Spot::First, Spot::Middle, Spot::Last],
    };
    let spot = random.pick(spots);
    loop {
        let (m, mut list) = any(random);
        let Some(at) = spot.place(random, list.len()) else {
            continue;
        };
        if let Some(bad) = faulty(random, &list[..at], list[at], m, faults) {
            list[at] = bad;
            return case(m, &list, Made::Faulty(faults.to_vec(), spot));
        }
    }
}

fn two_faulty(random: &mut Random) -> JournalCase {
    let [first, second] = [(); 2].map(|()| random.pick(&Fault::ALL));
    loop {
        let (m, mut list) = any(random);
        if list.len() < 2 {
            continue;
        }
        let later = 1 + random.below(list.len() - 1);
        let earlier = random.below(later);
        let mut put = |at: usize, fault| faulty(random, &list[..at], list[at], m, &[fault]);
        if let (Some(one), Some(other)) = (put(earlier, first), put(later, second)) {
            (list[earlier], list[later]) = (one, other);
            return case(m, &list, Made::TwoFaulty(first, second));
        }
    }
}

fn wrong_length(random: &mut Random) -> JournalCase {
    let mut made = if random.one_in(2) {
        let fault = random.pick(&Fault::ALL);
        one_faulty(random, &[fault])
    } else {
        let m = any_m(random);
        let length = random.pick(&[1, 2, 5, 30, MOST, MOST + 1, MOST + 1]);
        let list = any_journal(random, m, length);
        case(m, &list, Made::Valid)
    };
    let bytes = &mut made.journal;
    let odd = 1 + random.below(15);
    if bytes.len() <= 16 * MOST || random.one_in(3) {
        match random.below(3) {
            0 => bytes.truncate(bytes.len() - odd),
            _ => bytes.resize(bytes.len() + odd, random.pick(&[0, 1, 255])),
        }
    }
    made.made = Made::WrongLength;
    made
}

fn wrong_m(random: &mut Random) -> JournalCase {
    let mut made = match random.below(3) {
        0 => {
            let (m, list) = any(random);
            case(m, &list, Made::Valid)
        }
        1 => wrong_length(random),
        _ => {
            let fault = random.pick(&Fault::ALL);
            one_faulty(random, &[fault])
        }
    };
    made.m = random.pick(&[0, 1, 21, made.m + 256, made.m + (1 << 32), u64::MAX]);
    made.made = Made::WrongM;
    made
}

/// An m and a valid journal of any length, mostly a short one.
fn any(random: &mut Random) -> (usize, Vec<Transaction>) {
    let m = any_m(random);
    let length = match random.below(30) {
        0 => random.below(3),
        1 => random.pick(&[MOST, MOST, MOST - 1]),
        2 => random.between(400, MOST as i64) as usize,
        3..=8 => random.between(60, 400) as usize,
        _ => random.between(3, 60) as usize,
    };
    (m, any_journal(random, m, length))
}

fn any_m(random: &mut Random) -> usize {
    let largest = random.pick(&[4, 12, 20]);
    random.between(2, largest) as usize
}

/// So many transactions that are all good: claims and payments of any number and size, in some
/// journals up to the end of a cell's range.
pub fn any_journal(random: &mut Random, m: usize, length: usize) -> Vec<Transaction> {
    let mut unreported = any_claims(random);
    let mut reported: Vec<(u32, u8)> = Vec::new();
    let mut paid: Values = [0; 400];
    let reports = random.pick(&[10, 30, 60, 100]);
    let (digits, full) = (random.between(1, 10), random.one_in(3));
    let mut list = Vec::with_capacity(length);
    for calendar_year in calendar_years(random, m, length) {
        let is_report = reported.is_empty() || random.below(100) < reports;
        let new = if is_report { unreported.pop() } else { None };
        match new {
            Some(claim) => {
                let accident_year = any_accident_year(random, calendar_year);
                reported.push((claim, accident_year));
                list.push(Transaction::report(claim, accident_year, calendar_year));
            }
            None => {
                let (claim, accident_year) = random.pick(&reported);
                let delay = calendar_year - accident_year;
                let cell = &mut paid[place(accident_year.into(), delay.into())];
                let room = MOST_AMOUNT - *cell;
                let amount = match random.below(12) {
                    0 => 0,
                    1 => 1,
                    2 | 3 if full => room,
                    4 if full => room - 1,
                    5 if full => room / 2,
                    _ => random.of_digits(digits),
                };
                let amount = amount.clamp(0, room);
                *cell += amount;
                list.push(Transaction::payment(
                    claim,
                    accident_year,
                    calendar_year,
                    amount,
                ));
            }
        }
    }
    list
}

/// Every claim number, in the order in which they are taken, last one first.
fn any_claims(random: &mut Random) -> Vec<u32> {
    let mut claims: Vec<u32> = (0..CLAIMS as u32).collect();
    match random.below(3) {
        0 => {}
        1 => claims.reverse(),
        _ => random.shuffle(&mut claims),
    }
    claims
}

/// So many calendar years in order, of all or of a few.
fn calendar_years(random: &mut Random, m: usize, length: usize) -> Vec<u8> {
    let (first, last) = match random.below(4) {
        0 => {
            let first = random.between(1, m as i64);
            (first, random.between(first, m as i64))
        }
        _ => (1, m as i64),
    };
    let any_year = |_| random.between(first, last) as u8;
    let mut years: Vec<u8> = (0..length).map(any_year).collect();
    years.sort_unstable();
    years
}

/// An accident year up to the calendar year, mostly a late one.
fn any_accident_year(random: &mut Random, calendar_year: u8) -> u8 {
    let first = match random.below(3) {
        0 => 1,
        1 => calendar_year,
        _ => calendar_year.saturating_sub(2).max(1),
    };
    random.between(first.into(), calendar_year.into()) as u8
}
