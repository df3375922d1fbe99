//! The halves that r meets: how they are counted, and that the generated sets have all of them.

use reference::examples::set_k;
use reference::generate::{halves_met, shape_of, Shape};
use reference::halves::Quotient::{Cell, Delay, RowBase, Share, Ultimate};
use reference::halves::{add, during, texts, Halves, Kind, Quotient, KINDS};
use reference::rounding::r;
use reference::*;
use std::collections::BTreeSet;

fn kind(quotient: Quotient, is_negative: bool) -> Kind {
    Kind {
        quotient,
        is_negative,
    }
}

#[test]
fn halves_are_counted() {
    let round = |quotient, a: i64, b: i64| r(quotient, &Big::from(a), &Big::from(b));
    let outside = during(|| {
        round(Cell, 1, 2);
        let (_, met) = during(|| {
            for a in -9..=9 {
                round(Delay, a, 2);
                round(Share, a, 3);
            }
            round(Cell, -5, 10);
        });
        // 1/2, 5/2 and 9/2; 3/2 and 7/2.
        let wanted = [
            (kind(Delay, false), [3, 2]),
            (kind(Delay, true), [3, 2]),
            (kind(Cell, true), [1, 0]),
        ];
        assert_eq!(met, Halves::from(wanted));
    });
    assert_eq!(outside.1, Halves::from([(kind(Cell, false), [1, 0])]));
}

#[test]
fn halves_are_added() {
    let mut halves = Halves::from([(kind(Cell, true), [1, 2])]);
    add(
        &mut halves,
        Halves::from([(kind(Cell, true), [3, 4]), (kind(Share, false), [0, 1])]),
    );
    let wanted = [(kind(Cell, true), [4, 6]), (kind(Share, false), [0, 1])];
    assert_eq!(halves, Halves::from(wanted));
    assert_eq!(texts(&halves)[0], "0 + 1");
    assert_eq!(texts(&halves)[8], "4 + 6");
}

/// N(2) = 112.5 and the tail cell 62.5; under IDCL also the cells 337.5 and 202.5.
#[test]
fn halves_of_k() {
    let met = |method| during(|| forecast::forecast_set(&set_k(), method, 1)).1;
    let ultimate = (kind(Ultimate, false), [1, 0]);
    assert_eq!(
        met(0),
        Halves::from([ultimate, (kind(Cell, false), [1, 0])])
    );
    assert_eq!(
        met(2),
        Halves::from([ultimate, (kind(Cell, false), [2, 1])])
    );
}

/// Row bases of both signs: U = 5, R = 2 and R* = 1 or -1; W = 5 with U(1) = 5 and W(1) = 10.
#[test]
fn halves_of_row_bases() {
    let met = |method, second: i64| {
        let rows = examples::set(
            &[&[1, 0], &[1]],
            &[&[3, 2], &[3]],
            Some(&[&[10, 0], &[second]]),
        );
        during(|| forecast::forecast_set(&rows, method, 1)).1
    };
    assert_eq!(met(1, 5).get(&kind(RowBase, false)), Some(&[1, 0]));
    assert_eq!(met(1, 7).get(&kind(RowBase, false)), Some(&[0, 1]));
    assert_eq!(met(2, 4).get(&kind(RowBase, false)), Some(&[1, 0]));
    assert_eq!(met(2, 2).get(&kind(RowBase, true)), Some(&[1, 0]));
    assert_eq!(met(2, 0).get(&kind(RowBase, true)), Some(&[0, 1]));
}

/// Every half that can be is met often in sets made for them, and no other in any.
#[test]
fn every_half_occurs() {
    let (mut all, mut shapes) = (Halves::new(), BTreeSet::new());
    for (shape, met) in halves_met(0..6_000) {
        println!(
            "{shape:?}, {} forecasts: {:?}",
            met.forecasts,
            texts(&met.halves)
        );
        if shape == Shape::Halves {
            for (name, kind) in KINDS {
                let counts = met.halves.get(&kind).copied().unwrap_or_default();
                assert!(counts.iter().all(|&n| n >= 10), "{name}: {counts:?}");
            }
        }
        shapes.insert(shape);
        add(&mut all, met.halves);
    }
    assert_eq!(shapes.len(), 8);
    let possible = KINDS.map(|(_, kind)| kind);
    assert!(all.keys().all(|kind| possible.contains(kind)));
}

#[test]
fn each_eighth_seed_has_halves() {
    for seed in 0..240 {
        assert_eq!(shape_of(seed) == Shape::Halves, seed % 8 == 0);
    }
}
