//! Every comparison on a few thousand generated cases.

use compare::{Counts, COMPARISONS};
use reference::generate::{Given, Shape, Span};
use reference::halves::{add, Halves, Kind, KINDS, OF_FORECASTS};

const CASES: u64 = 3_000;

/// The comparison of this name, in which each of these calls accepted at least so many cases and
/// refused at least as many as it names; says what was counted.
fn the_same(name: &str, calls: &[(&str, u64, u64)]) -> Counts {
    let comparison = COMPARISONS
        .iter()
        .find(|comparison| comparison.name == name);
    match comparison.unwrap().run(0..CASES) {
        Ok(counts) => {
            for &(call, least, refused) in calls {
                let count = counts.accepted[call];
                assert!(
                    count >= least && CASES - count >= refused,
                    "{call}: {count} accepted"
                );
            }
            counts
        }
        Err(difference) => panic!("{difference}"),
    }
}

/// At least so many halves of every one of these kinds were met, with an even whole part and with
/// an odd one, in sets made for halves and in the others together.
fn met_halves(counts: &Counts, kinds: &[(&str, Kind)], least: [u64; 2]) {
    let (mut made, mut others) = (Halves::new(), Halves::new());
    for (shape, halves) in &counts.halves {
        let sum = match shape {
            Shape::Halves => &mut made,
            _ => &mut others,
        };
        add(sum, halves.clone());
    }
    for (halves, least) in [(made, least[0]), (others, least[1])] {
        for (name, kind) in kinds {
            let met = halves.get(kind).copied().unwrap_or_default();
            assert!(met.iter().all(|&n| n >= least), "{name}: {met:?}");
        }
    }
}

/// No half was met that there cannot be.
fn met_no_others(counts: &Counts) {
    let possible = KINDS.map(|(_, kind)| kind);
    let mut met = counts.halves.values().flat_map(Halves::keys);
    assert!(met.all(|kind| possible.contains(kind)));
}

#[test]
fn files() {
    let calls = [
        ("read", 2_000, 500),
        ("line 0", 400, 0),
        ("line 1", 200, 0),
        ("line 2", 200, 0),
        ("line 3", 200, 0),
        ("line 4", 200, 0),
        ("line 5", 200, 0),
        ("shares", 1_500, 700),
        ("delays", 1_000, 700),
        ("claim costs", 1_500, 700),
        ("forecast", 800, 900),
        ("back-test", 500, 900),
        ("page of method 0, basis 0", 1_500, 700),
        ("page of method 0, basis 1", 1_500, 700),
        ("page of method 1, basis 0", 800, 1_500),
        ("page of method 1, basis 1", 800, 1_500),
        ("page of method 2, basis 0", 800, 1_500),
        ("page of method 2, basis 1", 800, 1_500),
        ("page refused 1", 20, 0),
        ("page refused 2", 20, 0),
        ("page refused 3", 150, 0),
        ("page refused 4", 20, 0),
        ("page refused 5", 20, 0),
        ("page refused 6", 500, 0),
        ("page refused 9", 20, 0),
        ("page refused 10", 20, 0),
        ("page refused 11", 20, 0),
        ("page refused 12", 20, 0),
        ("page refused 13", 100, 0),
        ("page refused 14", 50, 0),
        ("page refused 15", 2_000, 500),
        ("cash refused 1", 20, 0),
        ("cash refused 2", 20, 0),
        ("cash refused 3", 150, 0),
        ("cash refused 4", 20, 0),
        ("cash refused 5", 20, 0),
        ("cash refused 6", 20, 0),
        ("cash refused 9", 20, 0),
        ("cash refused 10", 20, 0),
        ("cash refused 11", 20, 0),
        ("cash refused 12", 20, 0),
        ("cash refused 13", 20, 0),
        ("cash refused 14", 20, 0),
        ("cash refused 19", 1_500, 0),
        ("check refused 1", 20, 0),
        ("check refused 2", 20, 0),
        ("check refused 3", 150, 0),
        ("check refused 4", 20, 0),
        ("check refused 5", 20, 0),
        ("check refused 9", 20, 0),
        ("check refused 10", 20, 0),
        ("check refused 11", 20, 0),
        ("check refused 20", 1_500, 0),
        ("with delays refused 1", 20, 0),
        ("with delays refused 2", 20, 0),
        ("with delays refused 3", 150, 0),
        ("with delays refused 4", 20, 0),
        ("with delays refused 5", 20, 0),
        ("with delays refused 6", 20, 0),
        ("with delays refused 7", 20, 0),
        ("with delays refused 9", 20, 0),
        ("with delays refused 10", 20, 0),
        ("with delays refused 11", 20, 0),
        ("with delays refused 13", 20, 0),
        ("with delays refused 14", 20, 0),
        ("with delays refused 20", 1_500, 0),
        ("delays, solved", 1_500, 500),
        ("delays, other solution", 50, 0),
        ("delays, one up", 5, 0),
        ("delays, one down", 5, 0),
        ("delays, clipped", 50, 0),
        ("delays, 20 of them", 20, 0),
    ];
    let counts = the_same("files", &calls);
    for span in Span::ALL {
        let accepted = counts.accepted[span.name()];
        assert_eq!(accepted > 1_500, span.is_good(), "{}", span.name());
        assert_eq!(accepted == 0, !span.is_good(), "{}", span.name());
    }
    for given in Given::ALL {
        let accepted = counts.accepted[given.name()];
        assert!(given.can_stand() || accepted == 0, "{}", given.name());
    }
    met_halves(&counts, &KINDS[..OF_FORECASTS], [50, 10]);
    met_halves(&counts, &KINDS[OF_FORECASTS..], [10, 50]);
    met_no_others(&counts);
}

#[test]
fn damaged_files() {
    let calls = [
        ("read", 200, 2_000),
        ("line 0", 50, 0),
        ("line 1", 20, 0),
        ("line 2", 20, 0),
        ("line 3", 20, 0),
        ("line 4", 20, 0),
        ("line 5", 20, 0),
        ("page refused 3", 1_000, 1_000),
        ("page refused 15", 200, 2_000),
    ];
    met_no_others(&the_same("damaged files", &calls));
}

#[test]
fn writer() {
    let calls = [
        ("write", 2_000, 200),
        ("write refused 1", 20, 0),
        ("write refused 3", 20, 0),
        ("write refused 5", 20, 0),
        ("write refused 7", 20, 0),
    ];
    the_same("writer", &calls);
}

/// Journals made in every way, and every answer.
#[test]
fn journals() {
    let counts = [
        ("valid", 1_000, 1_000),
        ("one fault", 500, 0),
        ("two faults in one transaction", 150, 0),
        ("two faulty transactions", 150, 0),
        ("wrong length", 150, 0),
        ("wrong m", 150, 0),
        ("replay", 1_000, 1_000),
        ("replay refused 1", 150, 0),
        ("replay refused 16", 500, 0),
        ("replay refused 17", 200, 0),
        ("replay refused 18", 150, 0),
    ];
    the_same("journals", &counts);
}

#[test]
fn damaged_journals() {
    let counts = [
        ("replay", 200, 2_000),
        ("replay refused 1", 150, 0),
        ("replay refused 16", 800, 0),
        ("replay refused 17", 200, 0),
        ("replay refused 18", 50, 0),
    ];
    the_same("damaged journals", &counts);
}

#[test]
fn tally() {
    the_same("tally", &[]);
}

/// Every refusal that `closing` can print, and a forecast's text of every method and basis.
#[test]
fn inputs() {
    let texts = [
        ("not refused", 1_000, 1_000),
        ("refused 1", 1, 0),
        ("refused 2", 1, 0),
        ("refused 3", 1, 0),
        ("refused 4", 1, 0),
        ("refused 5", 1, 0),
        ("refused 6", 1, 0),
        ("refused 9", 1, 0),
        ("refused 10", 1, 0),
        ("refused 11", 1, 0),
        ("refused 12", 1, 0),
        ("refused 13", 1, 0),
        ("refused 14", 1, 0),
        ("text of method 0, basis 0", 100, 0),
        ("text of method 0, basis 1", 100, 0),
        ("text of method 1, basis 0", 100, 0),
        ("text of method 1, basis 1", 100, 0),
        ("text of method 2, basis 0", 100, 0),
        ("text of method 2, basis 1", 100, 0),
        ("too short", 500, 1_500),
    ];
    let counts = the_same("inputs", &texts);
    met_halves(&counts, &KINDS[..OF_FORECASTS], [3, 0]);
    met_no_others(&counts);
}

#[test]
fn damaged_inputs() {
    let texts = [
        ("not refused", 20, 1_000),
        ("refused 1", 500, 100),
        ("too short", 500, 1_500),
    ];
    the_same("damaged inputs", &texts);
}
