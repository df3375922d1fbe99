//! The peers against the independent calculation.

use bench::plain::{BackTest, Cash, ClaimCosts, Date, Delays, Forecast, Inflation, JournalTally};
use bench::plain::{Set, Shares};
use bench::{expert, plain};
use reference::cash::forecast_years;
use reference::examples::{set_k, set_k_without_incurred};
use reference::forecast::set_to_forecast;
use reference::generate::{case, closing_input, file, journal_case, put_on_line, windows};
use reference::generate::{writer_case, Case};
use reference::given_delays::Estimated;
use std::collections::BTreeSet;
use std::sync::OnceLock;

const CASES: u64 = 3_000;

type Answer<T> = Result<T, u64>;
type FileForecast = fn(&[u8], usize, u64, u64, &mut [i64]) -> Answer<Forecast>;
type CheckDelays = fn(&[u8], usize, &[i64]) -> Answer<u64>;
type ForecastWithDelays = fn(&[u8], usize, u64, u64, &[i64], &mut [i64]) -> Answer<Forecast>;
type ClosingPage = fn(&[u8], usize, u64, u64, &mut [u8]) -> Answer<()>;
type CashInWindow = fn(&[u8], usize, u64, u64, &[Date; 3]) -> Answer<Cash>;

/// The calls of a peer.
struct Peer {
    name: &'static str,
    read_set: fn(&[u8], usize) -> Answer<Set>,
    write_set: fn(&Set, &mut [u8]) -> Answer<()>,
    shares: fn(&[u8], usize) -> Answer<Shares>,
    delays: fn(&[u8], usize) -> Answer<Delays>,
    check_delays: CheckDelays,
    forecast: FileForecast,
    forecast_with_delays: ForecastWithDelays,
    claim_costs: fn(&[u8], usize) -> Answer<ClaimCosts>,
    back_test: fn(&[u8], usize, u64, u64, u64) -> Answer<BackTest>,
    respond: fn(&[u8], &mut [u8]) -> usize,
    closing_page: ClosingPage,
    cash_in_window: CashInWindow,
    replay: fn(&[u8], usize, &mut JournalTally) -> Answer<()>,
}

const PEERS: [Peer; 2] = [
    Peer {
        name: "plain",
        read_set: plain::read_set,
        write_set: plain::write_set,
        shares: plain::shares,
        delays: plain::delays,
        check_delays: plain::check_delays,
        forecast: plain::forecast,
        forecast_with_delays: plain::forecast_with_delays,
        claim_costs: plain::claim_costs,
        back_test: plain::back_test,
        respond: plain::respond,
        closing_page: plain::closing_page,
        cash_in_window: plain::cash_in_window,
        replay: |journal, m, tally| plain::replay(journal, m).map(|found| *tally = found),
    },
    Peer {
        name: "expert",
        read_set: |file, m| {
            let mut set = Set {
                line: 7,
                triangles: [[7; 400]; 3],
                ..Set::zero()
            };
            expert::read_set(file, m, &mut set).map(|()| set)
        },
        write_set: expert::write_set,
        shares: expert::shares,
        delays: expert::delays,
        check_delays: expert::check_delays,
        forecast: expert::forecast,
        forecast_with_delays: expert::forecast_with_delays,
        claim_costs: expert::claim_costs,
        back_test: expert::back_test,
        respond: expert::respond,
        closing_page: expert::closing_page,
        cash_in_window: expert::cash_in_window,
        replay: expert::replay,
    },
];

/// Each seed's case, and each peer with what to say of a difference.
fn each_case(compare: impl Fn(u64, &Case, &Peer, &str)) {
    static MADE: OnceLock<Vec<Case>> = OnceLock::new();
    let cases = MADE.get_or_init(|| (0..CASES).map(case).collect());
    for (case, seed) in cases.iter().zip(0..) {
        for peer in &PEERS {
            compare(seed, case, peer, &format!("{}, seed {seed}", peer.name));
        }
    }
}

/// The reader's answer to a file, which is the one that is wanted; says its line.
fn same_set(file: &[u8], m: u64, peer: &Peer, text: &str) -> Answer<u64> {
    let found = (peer.read_set)(file, m as usize);
    let found = found.map(|set| (set.line, set.has_incurred, set.triangles));
    let wanted = reference::read_set(file, m);
    let wanted = wanted.map(|set| {
        let triangles = [set.counts, set.paid, set.incurred];
        (set.line, set.has_incurred, triangles)
    });
    assert_eq!(found, wanted, "{text}");
    wanted.map(|(line, ..)| line)
}

#[test]
fn reader() {
    each_case(|_, case, peer, text| {
        same_set(&case.file, case.m, peer, text).ok();
    });
}

/// All records on any line, and one byte of one record, the line or a spare one, changed.
#[test]
fn lines() {
    let mut answers = BTreeSet::new();
    let mut ask = |file: &[u8], text: &str| {
        for peer in &PEERS {
            answers.insert(same_set(file, 2, peer, &format!("{}, {text}", peer.name)));
        }
    };
    for mut file in [file(&set_k()), file(&set_k_without_incurred())] {
        for line in 0..=255 {
            put_on_line(&mut file, line);
            ask(&file, &format!("line {line}"));
        }
        for line in 0..=6 {
            put_on_line(&mut file, line);
            for at in (0..file.len()).filter(|at| (3..8).contains(&(at % 16))) {
                for value in [0, 1, 2, 3, 4, 5, 6, 128, 255] {
                    let mut changed = file.clone();
                    changed[at] = value;
                    ask(&changed, &format!("{value} at {at} of line {line}"));
                }
            }
        }
    }
    let answers: Vec<Answer<u64>> = answers.into_iter().collect();
    assert_eq!(answers, [Ok(0), Ok(1), Ok(2), Ok(3), Ok(4), Ok(5), Err(3)]);
}

#[test]
fn writer() {
    for seed in 0..CASES {
        let case = writer_case(seed);
        let set = Set {
            m: case.m as usize,
            line: case.line,
            has_incurred: case.has_incurred,
            triangles: [case.counts, case.paid, case.incurred],
        };
        let [counts, paid, incurred] = &set.triangles;
        let mut wanted = vec![7; case.out_len];
        let (m, line, has_incurred) = (case.m, case.line, case.has_incurred);
        let out = &mut wanted;
        let answer = reference::write_set(m, line, has_incurred, counts, paid, incurred, out);
        for peer in &PEERS {
            let mut out = vec![7; case.out_len];
            let found = (peer.write_set)(&set, &mut out);
            assert_eq!(
                (found, &out),
                (answer, &wanted),
                "{}, seed {seed}",
                peer.name
            );
        }
    }
}

#[test]
fn shares_and_delays() {
    each_case(|_, case, peer, text| {
        let found = (peer.shares)(&case.file, case.m as usize);
        let wanted = reference::shares(&case.file, case.m).map(|wanted| Shares {
            line: wanted.line,
            b: wanted.b,
            n: wanted.n,
            q: wanted.q,
            g: wanted.g,
            u: wanted.u,
        });
        assert_eq!(found, wanted, "{text}");
        let found = (peer.delays)(&case.file, case.m as usize);
        let wanted = reference::delays(&case.file, case.m).map(|wanted| Delays {
            line: wanted.line,
            p: wanted.p,
        });
        assert_eq!(found, wanted, "{text}");
    });
}

/// The entries at the front of an output that held 7, the line and the leftovers are those that are
/// wanted.
fn same_forecast(
    out: &[i64],
    found: Answer<Forecast>,
    wanted: Answer<reference::Forecast>,
    text: &str,
) {
    let entries = wanted.as_ref().map_or(&[][..], |wanted| &wanted.entries);
    assert_eq!(out[..entries.len()], *entries, "{text}");
    assert!(
        out[entries.len()..].iter().all(|&entry| entry == 7),
        "{text}"
    );
    let wanted = wanted.map(|wanted| Forecast {
        line: wanted.line,
        leftovers: wanted.leftovers,
    });
    assert_eq!(found, wanted, "{text}");
}

#[test]
fn forecast() {
    each_case(|_, case, peer, text| {
        let mut out = vec![7; case.out_len];
        let (m, method, basis) = (case.m, case.method, case.basis);
        let found = (peer.forecast)(&case.file, m as usize, method, basis, &mut out);
        let wanted = reference::forecast(&case.file, m, method, basis, case.out_len);
        same_forecast(&out, found, wanted, text);
    });
}

/// Delays of every kind.
#[test]
fn given_delays() {
    each_case(|seed, case, peer, text| {
        let (file, m, method, basis) = (&case.file[..], case.m, case.method, case.basis);
        let checked = reference::read_set(file, m).and_then(Estimated::of);
        let asked = set_to_forecast(file, m, method, basis, case.out_len).and_then(Estimated::of);
        for (given, delays) in reference::generate::given_delays(seed, file, m) {
            let text = format!("{text}, {given:?}: {delays:?}");
            let wanted = match &checked {
                Ok(of) => of.given(&delays).map(|_| of.set.line),
                Err(refusal) => Err(*refusal),
            };
            let found = (peer.check_delays)(file, m as usize, &delays);
            assert_eq!(found, wanted, "{text}");
            let wanted = match &asked {
                Ok(of) => of.forecast(method, basis, &delays),
                Err(refusal) => Err(*refusal),
            };
            let mut out = vec![7; case.out_len];
            let call = peer.forecast_with_delays;
            let found = call(file, m as usize, method, basis, &delays, &mut out);
            same_forecast(&out, found, wanted, &text);
        }
    });
}

#[test]
fn claim_costs() {
    each_case(|_, case, peer, text| {
        let found = (peer.claim_costs)(&case.file, case.m as usize);
        let wanted = reference::claim_costs(&case.file, case.m).map(|wanted| ClaimCosts {
            line: wanted.line,
            mu: wanted.mu,
            factors: wanted.factors,
            inflations: wanted.inflations.map(|inflation| match inflation {
                reference::Inflation::BaseYear => Inflation::BaseYear,
                reference::Inflation::NoPaymentsYet => Inflation::NoPaymentsYet,
                reference::Inflation::Ratio(ratio) => Inflation::Ratio(ratio),
            }),
        });
        assert_eq!(found, wanted, "{text}");
    });
}

#[test]
fn back_test() {
    each_case(|_, case, peer, text| {
        let (m, method, basis) = (case.m, case.method, case.basis);
        let found = (peer.back_test)(&case.file, m as usize, case.cut, method, basis);
        let wanted = reference::back_test(&case.file, m, case.cut, method, basis);
        let wanted = wanted.map(|wanted| BackTest {
            line: wanted.line,
            cells: wanted.cells,
            cellwise: wanted.cellwise,
            yearwise: wanted.yearwise,
            overall: wanted.overall,
        });
        assert_eq!(found, wanted, "{text}");
    });
}

#[test]
fn respond() {
    each_case(|seed, _, peer, text| {
        let input = closing_input(seed);
        let wanted = reference::closing(&input);
        let short = wanted.len() - 1;
        let mut out = [7; 3_000];
        assert_eq!((peer.respond)(&input, &mut out[..short]), 0, "{text}");
        assert!(out.iter().all(|&byte| byte == 7), "{text}");
        assert_eq!((peer.respond)(&input, &mut out), wanted.len(), "{text}");
        assert_eq!(out[..wanted.len()], wanted, "{text}");
        assert!(out[wanted.len()..].iter().all(|&byte| byte == 7), "{text}");
    });
}

#[test]
fn closing_page() {
    each_case(|seed, case, peer, text| {
        let (m, method, basis) = (case.m, case.method, case.basis);
        let needed = 136 * m.clamp(1, 20) as usize;
        for length in [needed - 1, needed + seed as usize % 3] {
            let mut page = vec![7; length];
            let found = (peer.closing_page)(&case.file, m as usize, method, basis, &mut page);
            let wanted = reference::closing_page(&case.file, m, method, basis, length);
            assert_eq!(found, wanted.as_ref().map(|_| ()).map_err(|&n| n), "{text}");
            let wanted = wanted.unwrap_or_default();
            assert_eq!(page[..wanted.len()], *wanted.as_bytes(), "{text}");
            assert!(page[wanted.len()..].iter().all(|&byte| byte == 7), "{text}");
        }
    });
}

#[test]
fn cash_in_window() {
    each_case(|seed, case, peer, text| {
        let (m, method, basis) = (case.m, case.method, case.basis);
        let years = forecast_years(&case.file, m, method, basis);
        for (span, window) in windows(seed, m) {
            let dates = window.dates().map(|date| [date.year, date.month, date.day]);
            let found = (peer.cash_in_window)(&case.file, m as usize, method, basis, &dates);
            let wanted = match &years {
                Ok(years) => years.cash(&window).map(|amount| Cash {
                    line: years.line,
                    amount,
                }),
                Err(refusal) => Err(*refusal),
            };
            assert_eq!(found, wanted, "{text}, {}: {window:?}", span.name());
        }
    });
}

/// The tally starts from zeros whatever was handed in, and stays as it was on a refusal.
#[test]
fn replay() {
    let mut accepted = 0;
    for seed in 0..CASES {
        let case = journal_case(seed);
        let wanted = reference::replay(&case.journal, case.m);
        accepted += u64::from(wanted.is_ok());
        for peer in &PEERS {
            let mut tally = JournalTally {
                claims: [7; 4_096],
                counts: [7; 400],
                paid: [7; 400],
                last: 7,
            };
            let found = (peer.replay)(&case.journal, case.m as usize, &mut tally);
            let text = format!("{}, seed {seed}", peer.name);
            assert_eq!(found.err(), wanted.as_ref().err().copied(), "{text}");
            let found = (tally.claims, tally.counts, tally.paid, tally.last);
            let wanted = match &wanted {
                Ok(wanted) => (wanted.claims, wanted.counts, wanted.paid, wanted.last),
                Err(_) => ([7; 4_096], [7; 400], [7; 400], 7),
            };
            assert!(found == wanted, "{text}");
        }
    }
    assert!(accepted > 1_000 && CASES - accepted > 1_000, "{accepted}");
}
