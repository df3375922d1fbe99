//! The calls that take a file.

mod back_test;
mod cash;
mod claim_costs;
mod delays;
mod forecast;
mod given_delays;
mod line;
mod page;
mod reader;
mod shares;

pub use cash::compare_file as cash_in_window;
pub use given_delays::compare_file as forecast_with_delays;
pub use page::compare_file as closing_page;
pub use reader::{compare_file as read_set, natural};

use crate::difference::{hexadecimal, same, Difference};
use crate::Counts;
use line::LentLine;
use pardesul::{Basis, Method, Refusal, TriangleSet};
use reference::generate::{case, set_of, shuffled_file, Case, Random};

/// A call on a case; says whether it was accepted.
type Call = fn(u64, &Case, &mut Counts) -> Result<bool, Difference>;

const CALLS: [(&str, Call); 6] = [
    ("read", reader::compare),
    ("shares", shares::compare),
    ("delays", delays::compare),
    ("claim costs", claim_costs::compare),
    ("forecast", forecast::compare),
    ("back-test", back_test::compare),
];

/// Every call on a case.
pub fn compare(seed: u64, case: &Case, counts: &mut Counts) -> Result<(), Difference> {
    for (name, call) in CALLS {
        let accepted = call(seed, case, counts)?;
        counts.count(name, accepted);
    }
    page::compare(seed, case, counts)?;
    cash::compare(seed, case, counts)?;
    given_delays::compare(seed, case, counts)
}

/// Every call on the seed's case.
pub fn of_case(seed: u64, counts: &mut Counts) -> Result<(), Difference> {
    compare(seed, &case(seed), counts)
}

/// Every call on the file of the seed's set with bytes changed, dropped or added at random.
pub fn of_damaged(seed: u64, counts: &mut Counts) -> Result<(), Difference> {
    let mut random = Random::new(seed);
    let set = set_of(seed, &mut random);
    let mut file = shuffled_file(&mut random, &set);
    for _ in 0..random.between(1, 3) {
        let (at, any) = (random.below(file.len() + 1), random.number() as u8);
        match random.below(16) {
            0 => file.insert(at, any),
            1 => file.truncate(at),
            _ if at < file.len() => {
                file[at] = random.pick(&[0, 1, 2, 3, 20, 21, 127, 128, 255, any])
            }
            _ => {}
        }
    }
    let case = Case {
        m: set.m as u64,
        file,
        method: random.below(3) as u64,
        basis: random.below(2) as u64,
        out_len: 1_560,
        cut: 1,
    };
    compare(seed, &case, counts)
}

/// The arguments of a case; the file in hexadecimal.
fn arguments(seed: u64, case: &Case) -> String {
    let file = hexadecimal(&case.file);
    let (m, method, basis, cut, room) = (case.m, case.method, case.basis, case.cut, case.out_len);
    format!("seed {seed}, m {m}, method {method}, basis {basis}, cut {cut}, output of {room}, file {file}")
}

/// A call of the safe crate on a case both ways: on the file, and on the set read from it.
fn both_ways<T>(
    case: &Case,
    of_file: impl Fn(&[u8], usize) -> Result<T, Refusal>,
    of_set: impl Fn(TriangleSet) -> Result<T, Refusal>,
) -> [(&'static str, Result<T, u64>); 2] {
    let (file, m) = (&case.file[..], case.m as usize);
    [
        ("of a file", numbered(of_file(file, m))),
        (
            "of a set",
            numbered(TriangleSet::read(file, m).and_then(of_set)),
        ),
    ]
}

/// The method and basis of a case in the types of the safe crate, which refuses other numbers with
/// 6.
fn method_and_basis(seed: u64, case: &Case) -> Result<Option<(Method, Basis)>, Difference> {
    let found =
        Method::try_from(case.method).and_then(|method| Ok((method, Basis::try_from(case.basis)?)));
    let found = numbered(found);
    let wanted = match (case.method, case.basis) {
        (0..=2, 0..=1) => Ok((case.method, case.basis)),
        _ => Err(6),
    };
    let numbers = found.map(|(method, basis)| (method as u64, basis as u64));
    same("method and basis", numbers, wanted, || {
        arguments(seed, case)
    })?;
    Ok(found.ok())
}

/// A refusal by its number.
fn numbered<T>(answer: Result<T, Refusal>) -> Result<T, u64> {
    answer.map_err(Refusal::number)
}

/// A list of fixed size.
fn fixed<W, const N: usize>(list: &mut [W]) -> &mut [W; N] {
    list.try_into().expect("a list of that length")
}
