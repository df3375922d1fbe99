//! The claims journal.

use crate::difference::{hexadecimal, same, same_list, Difference};
use crate::{files, Counts};
use pardesul::{calls, Journal, JournalTally, Refusal};
use reference::generate::{file, journal_case, Made, Random};
use reference::{read_set, replay, Set, Transaction};

/// What is counted of refusals.
const REFUSED: [(u64, &str); 4] = [
    (1, "replay refused 1"),
    (16, "replay refused 16"),
    (17, "replay refused 17"),
    (18, "replay refused 18"),
];

/// A tally, or the number of its refusal.
type Answer = Result<reference::JournalTally, u64>;

/// The seed's journal.
pub fn of_case(seed: u64, counts: &mut Counts) -> Result<(), Difference> {
    let case = journal_case(seed);
    let made = match case.made {
        Made::Valid => "valid",
        Made::Faulty(faults, _) if faults.len() == 1 => "one fault",
        Made::Faulty(..) => "two faults in one transaction",
        Made::TwoFaulty(..) => "two faulty transactions",
        Made::WrongLength => "wrong length",
        Made::WrongM => "wrong m",
    };
    counts.count(made, true);
    count(&compare(seed, &case.journal, case.m)?, counts);
    Ok(())
}

/// The seed's journal with bytes changed, dropped or added at random, under its m or another one.
pub fn of_damaged(seed: u64, counts: &mut Counts) -> Result<(), Difference> {
    let mut random = Random::new(seed ^ (1 << 44));
    let mut case = journal_case(seed);
    for _ in 0..random.between(1, 2) {
        let (at, any) = (random.below(case.journal.len() + 1), random.number() as u8);
        match random.below(16) {
            0 => case.journal.insert(at, any),
            1 => case.journal.truncate(at),
            2 => case.journal.truncate(at / 16 * 16),
            _ if at < case.journal.len() => {
                case.journal[at] = random.pick(&[0, 0, 1, 2, 3, 19, 20, 21, 128, 255, any])
            }
            _ => {}
        }
    }
    if random.one_in(4) {
        case.m = random.between(2, 20) as u64;
    }
    count(&compare(seed, &case.journal, case.m)?, counts);
    Ok(())
}

fn count(answer: &Answer, counts: &mut Counts) {
    counts.count("replay", answer.is_ok());
    for (number, name) in REFUSED {
        counts.count(name, answer.as_ref().err() == Some(&number));
    }
}

/// A tally that holds anything, between words that have to stay.
#[derive(Clone)]
#[repr(C)]
struct Lent {
    before: [u64; 4],
    tally: JournalTally,
    behind: [u64; 4],
}

impl Lent {
    fn any(seed: u64) -> Box<Lent> {
        let mut random = Random::new(seed);
        let mut lent = Box::new(Lent {
            before: [0; 4],
            tally: JournalTally::zero(),
            behind: [0; 4],
        });
        lent.before.fill_with(|| random.number());
        lent.behind.fill_with(|| random.number());
        lent.tally.claims.fill_with(|| random.number() as u8);
        lent.tally.counts.fill_with(|| random.number() as i64);
        lent.tally.paid.fill_with(|| random.number() as i64);
        lent.tally.last = random.number() as usize;
        lent
    }
}

/// Any journal: by the call, lent a tally that holds anything, and by the safe crate; says the
/// answer.
pub fn compare(seed: u64, journal: &[u8], m: u64) -> Result<Answer, Difference> {
    let text = || format!("seed {seed}, m {m}, journal {}", hexadecimal(journal));
    let answer = replay(journal, m);
    let m = m as usize;
    let wanted = answer.clone().map(of_reference);

    let before = Lent::any(seed);
    let mut lent = before.clone();
    let refusal = calls::replay(journal, m, &mut lent.tally);
    same(
        "replay, refusal",
        Some(refusal).filter(|&n| n != 0),
        wanted.as_ref().err().copied(),
        text,
    )?;
    let left = wanted.as_ref().unwrap_or(&before.tally);
    same_tally("replay", &lent.tally, left, text)?;
    let around = |lent: &Lent| [lent.before, lent.behind];
    same("replay, memory", around(&lent), around(&before), text)?;

    let whole = Journal::from_bytes(journal);
    let ways = [
        ("pardesul::replay", pardesul::replay(journal, m)),
        ("Journal::replay", whole.replay(m)),
    ];
    for (way, found) in ways {
        let found = found.map_err(Refusal::number);
        same(way, found.as_ref().err(), wanted.as_ref().err(), text)?;
        if let (Ok(found), Ok(wanted)) = (&found, &wanted) {
            same_tally(way, found, wanted, text)?;
        }
    }
    let found = whole.to_set(m).map_err(Refusal::number);
    let set = answer.as_ref().map(|tally| set(tally, m));
    let wanted = set.as_ref().map(files::natural).map_err(|&&number| number);
    same("Journal::to_set", found, wanted, text)?;
    if let Ok(set) = &set {
        same("journal put together", together(journal), whole, text)?;
        written(seed, &lent.tally, set, text)?;
    }
    Ok(answer)
}

/// A tally of the reference in the type of `pardesul`.
fn of_reference(tally: reference::JournalTally) -> JournalTally {
    JournalTally {
        claims: tally.claims,
        counts: tally.counts,
        paid: tally.paid,
        last: tally.last,
    }
}

/// The set of a tally.
fn set(tally: &reference::JournalTally, m: usize) -> Set {
    Set {
        counts: tally.counts,
        paid: tally.paid,
        ..Set::empty(m, false)
    }
}

fn same_tally(
    what: &str,
    found: &JournalTally,
    wanted: &JournalTally,
    case: impl Fn() -> String,
) -> Result<(), Difference> {
    let list = |name: &str| format!("{what}, {name}");
    same_list(&list("claims"), &found.claims, &wanted.claims, &case)?;
    same_list(&list("counts"), &found.counts, &wanted.counts, &case)?;
    same_list(&list("paid"), &found.paid, &wanted.paid, &case)?;
    same(&list("last"), found.last, wanted.last, &case)
}

/// The journal put together from its transactions.
fn together(journal: &[u8]) -> Journal {
    let mut together = Journal::new();
    for each in journal.chunks(16).map(Transaction::read) {
        let (claim, accident, calendar) = (each.claim, each.accident_year, each.calendar_year);
        match each.kind {
            0 => together.report(claim, accident, calendar),
            _ => together.pay(claim, accident, calendar, each.amount),
        };
    }
    together
}

/// The triangles of an accepted journal are those of a set, on any line: the writer refuses nothing
/// but too little room, and what it writes reads back.
fn written(
    seed: u64,
    tally: &JournalTally,
    set: &Set,
    case: impl Fn() -> String,
) -> Result<(), Difference> {
    let set = &set.on_line(seed % 6);
    let wanted = file(set);
    let mut out = vec![0; wanted.len()];
    for (room, refusal) in [(wanted.len() - 1, 7), (wanted.len(), 0)] {
        let (counts, paid, incurred) = (&tally.counts, &tally.paid, &[i64::MIN; 400]);
        let (m, line, out) = (set.m, set.line, &mut out[..room]);
        let found = calls::write_set(m, line, false, counts, paid, incurred, out);
        same("set, refusal", found, refusal, &case)?;
    }
    same_list("set, file", &out, &wanted, &case)?;
    let m = set.m as u64;
    same("set, read back", read_set(&out, m).as_ref(), Ok(set), &case)?;
    files::read_set(seed, &out, m).map(|_| ())
}
