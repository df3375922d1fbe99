//! Given delays: whether they stand, and the forecast with them.

use super::{both_ways, fixed, LentLine};
use crate::difference::{hexadecimal, same, Difference};
use crate::memory::Memory;
use crate::Counts;
use pardesul::{calls, Basis, Method};
use reference::forecast::set_to_forecast;
use reference::generate::{given_delays, Case, Given};
use reference::given_delays::Estimated;
use reference::paid_reserve::{distances, paid_reserves, PaidReserve};
use reference::{read_set, Forecast};
use std::collections::BTreeSet;

/// What is counted of cases that met a refusal of the check.
const CHECK_REFUSED: [(u64, &str); 9] = [
    (1, "check refused 1"),
    (2, "check refused 2"),
    (3, "check refused 3"),
    (4, "check refused 4"),
    (5, "check refused 5"),
    (9, "check refused 9"),
    (10, "check refused 10"),
    (11, "check refused 11"),
    (20, "check refused 20"),
];

/// Of cases that met a refusal of the forecast with given delays.
const FORECAST_REFUSED: [(u64, &str); 13] = [
    (1, "with delays refused 1"),
    (2, "with delays refused 2"),
    (3, "with delays refused 3"),
    (4, "with delays refused 4"),
    (5, "with delays refused 5"),
    (6, "with delays refused 6"),
    (7, "with delays refused 7"),
    (9, "with delays refused 9"),
    (10, "with delays refused 10"),
    (11, "with delays refused 11"),
    (13, "with delays refused 13"),
    (14, "with delays refused 14"),
    (20, "with delays refused 20"),
];

/// m, method and basis.
type Settings = [u64; 3];

/// Delays of every kind: the check, the forecast under the case's method and basis, and under DCL
/// with estimated counts where the delays stand.
pub fn compare(seed: u64, case: &Case, counts: &mut Counts) -> Result<(), Difference> {
    let asked = Asked::of(seed, &case.file, case, counts);
    let (mut accepted, mut checks, mut forecasts) =
        (BTreeSet::new(), BTreeSet::new(), BTreeSet::new());
    for (given, delays) in given_delays(seed, &case.file, case.m) {
        let answers = asked.compare(seed, case, &delays, counts)?;
        match answers.check {
            Ok(_) => accepted.insert(given),
            Err(refusal) => checks.insert(refusal),
        };
        forecasts.extend(answers.forecast.err());
    }
    for given in Given::ALL {
        counts.count(given.name(), accepted.contains(&given));
    }
    for (number, name) in CHECK_REFUSED {
        counts.count(name, checks.contains(&number));
    }
    for (number, name) in FORECAST_REFUSED {
        counts.count(name, forecasts.contains(&number));
    }
    with_solved(seed, case)
}

/// Any delays with any file, and an output of any length.
pub fn compare_file(
    seed: u64,
    file: &[u8],
    [m, method, basis]: Settings,
    delays: &[i64],
    out_len: usize,
) -> Result<(), Difference> {
    let case = Case {
        m,
        file: file.to_vec(),
        method,
        basis,
        out_len,
        cut: 0,
    };
    let counts = &mut Counts::default();
    let asked = Asked::of(seed, file, &case, counts);
    asked.compare(seed, &case, delays, counts)?;
    with_solved(seed, &case)
}

/// The answers to given delays; that of the check is the line.
struct Answers {
    check: Result<u64, u64>,
    forecast: Result<Forecast, u64>,
}

/// What the calculation has of a case before any delays are given.
struct Asked<'a> {
    /// The file where it is lent to the raw calls.
    file: &'a [u8],
    /// The refusal of questions 1 to 7.
    early: Option<u64>,
    /// Questions 1 to 5 and 9 to 11.
    estimated: Result<Estimated, u64>,
    /// What demand 3 holds the forecasts to.
    reserves: Vec<PaidReserve>,
}

impl Asked<'_> {
    fn of<'a>(seed: u64, file: &'a [u8], case: &Case, counts: &mut Counts) -> Asked<'a> {
        let (m, room) = (case.m, case.out_len);
        let estimated = counts.answer(seed, || read_set(file, m).and_then(Estimated::of));
        let reserves = estimated.as_ref().map(|of| paid_reserves(&of.estimates));
        Asked {
            file,
            early: set_to_forecast(file, m, case.method, case.basis, room).err(),
            reserves: reserves.unwrap_or_default(),
            estimated,
        }
    }

    /// Question 20, and the line.
    fn check(&self, delays: &[i64]) -> Result<u64, u64> {
        match &self.estimated {
            Ok(estimated) => estimated.given(delays).map(|_| estimated.set.line),
            Err(refusal) => Err(*refusal),
        }
    }

    /// Questions 20, 13 and 14, and the forecast.
    fn forecast(&self, method: u64, basis: u64, delays: &[i64]) -> Result<Forecast, u64> {
        match &self.estimated {
            Ok(estimated) => estimated.forecast(method, basis, delays),
            Err(refusal) => Err(*refusal),
        }
    }

    /// Both calls with these delays, raw and by the safe crate; says the answers.
    fn compare(
        &self,
        seed: u64,
        case: &Case,
        delays: &[i64],
        counts: &mut Counts,
    ) -> Result<Answers, Difference> {
        let (method, basis, room) = (case.method, case.basis, case.out_len);
        let text = || arguments(seed, case, delays);
        let check = self.check(delays);
        let mut line = LentLine::new(seed);
        let refusal = calls::check_delays(self.file, case.m as usize, delays, line.lent());
        line.beside("check", refusal, &check, |&line| line, text)?;
        let ways = both_ways(
            case,
            |file, m| pardesul::check_delays(file, m, delays),
            |set| set.check_delays(delays),
        );
        for (way, found) in ways {
            same(&format!("check {way}"), found, check, text)?;
        }

        let forecast = counts.answer(seed, || match self.early {
            Some(refusal) => Err(refusal),
            None => self.forecast(method, basis, delays),
        });
        self.raw_forecast(seed, case, [method, basis], delays, room, &forecast)?;
        if check.is_ok() && (method, basis) != (0, 1) {
            let plain = counts.answer(seed, || self.forecast(0, 1, delays));
            self.raw_forecast(seed, case, [0, 1], delays, 1_560, &plain)?;
        }
        // The output of the safe crate is always long enough.
        let wanted = match self.early {
            Some(7) => self.forecast(method, basis, delays),
            _ => forecast.clone(),
        };
        let m = case.m as usize;
        let wanted = wanted.map(|of| (of.line, of.entries, of.leftovers[..m].to_vec()));
        if let (Ok(method), Ok(basis)) = (Method::try_from(method), Basis::try_from(basis)) {
            let ways = both_ways(
                case,
                |file, m| pardesul::forecast_with_delays(file, m, method, basis, delays),
                |set| set.forecast_with_delays(method, basis, delays),
            );
            for (way, found) in ways {
                let found = found.map(|of| (of.line, of.entries().to_vec(), of.leftovers));
                same(&format!("with delays {way}"), &found, &wanted, text)?;
            }
        }
        Ok(Answers { check, forecast })
    }

    /// The raw forecast is what is wanted, its memory included; of DCL with estimated counts, what
    /// was written is held to demand 3, multiplied out.
    fn raw_forecast(
        &self,
        seed: u64,
        case: &Case,
        [method, basis]: [u64; 2],
        delays: &[i64],
        room: usize,
        wanted: &Result<Forecast, u64>,
    ) -> Result<(), Difference> {
        let (file, m) = (self.file, case.m as usize);
        let text = || {
            let arguments = arguments(seed, case, delays);
            format!("under method {method}, basis {basis}: {arguments}")
        };
        let mut memory = Memory::new(seed, &[room, 20]);
        let mut line = LentLine::new(seed);
        let [out, leftovers] = memory.lists();
        let refusal = calls::forecast_with_delays(
            file,
            m,
            method,
            basis,
            delays,
            line.lent(),
            out,
            fixed(leftovers),
        );
        line.beside("with delays", refusal, wanted, |of| of.line, text)?;
        let lists = wanted.as_ref().ok();
        let lists = lists.map(|of| [&of.entries[..], &of.leftovers]);
        memory.holds("with delays", lists.as_ref().map(|lists| &lists[..]), text)?;
        if refusal == 0 && (method, basis) == (0, 1) {
            let [out, _] = memory.lists();
            let years = distances(&self.reserves, out);
            let within = years.iter().all(|year| year.within);
            same("with delays, paid reserve", within, true, text)?;
        }
        Ok(())
    }
}

/// With the delays that the library solves, it answers as it does without any.
fn with_solved(seed: u64, case: &Case) -> Result<(), Difference> {
    let (file, m, method, basis) = (&case.file, case.m as usize, case.method, case.basis);
    let (mut solved, mut p) = (0, [0; 20]);
    if calls::delays(file, m, &mut solved, &mut p) != 0 {
        return Ok(());
    }
    let delays = &p[..m];
    let text = || arguments(seed, case, delays);
    let [mut with, mut without] = [(); 2].map(|()| Memory::new(seed, &[case.out_len, 20]));
    let [mut line, mut plain_line] = [seed; 2];
    let [out, leftovers] = with.lists();
    let refusal = calls::forecast_with_delays(
        file,
        m,
        method,
        basis,
        delays,
        &mut line,
        out,
        fixed(leftovers),
    );
    let [plain_out, plain_leftovers] = without.lists();
    let plain_refusal = calls::forecast(
        file,
        m,
        method,
        basis,
        &mut plain_line,
        plain_out,
        fixed(plain_leftovers),
    );
    same("solved delays, refusal", refusal, plain_refusal, text)?;
    same("solved delays, line", line, plain_line, text)?;
    same("solved delays, output", &*out, &*plain_out, text)?;
    same(
        "solved delays, leftovers",
        &*leftovers,
        &*plain_leftovers,
        text,
    )?;
    let mut checked = seed;
    let refusal = calls::check_delays(file, m, delays, &mut checked);
    same(
        "solved delays, check",
        (refusal, checked),
        (0, solved),
        text,
    )
}

/// The arguments; the file in hexadecimal.
fn arguments(seed: u64, case: &Case, delays: &[i64]) -> String {
    let (m, method, basis, room) = (case.m, case.method, case.basis, case.out_len);
    let file = hexadecimal(&case.file);
    let settings = format!("m {m}, method {method}, basis {basis}, output of {room}");
    format!("seed {seed}, {settings}, delays {delays:?}, file {file}")
}
