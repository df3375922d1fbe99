//! Given delays: question 20 and where it stands, all that a half lets stand, and the forecasts.

use reference::examples::{set, set_k, set_of_other_solution, set_of_three_solutions};
use reference::examples::{sets_past_the_range, EDGES};
use reference::forecast::{entry_count, set_to_forecast};
use reference::generate::{case, file, given_delays, next_values, Given, LIMIT};
use reference::given_delays::{twice_distance, Estimated};
use reference::paid_reserve::{distances, paid_reserves};
use reference::*;
use std::collections::BTreeMap;

/// The refusal of these delays, 0 where they are accepted.
fn refusal(set: &Set, delays: &[i64]) -> Refusal {
    check_delays(&file(set), set.m as u64, delays)
        .err()
        .unwrap_or(0)
}

/// The forecast under method 0, basis 1.
fn dcl(set: &Set, delays: &[i64]) -> Result<Forecast, Refusal> {
    let room = entry_count(set.m);
    forecast_with_delays(&file(set), set.m as u64, 0, 1, delays, room)
}

#[test]
fn delays_of_k() {
    let (set, p) = (set_k(), [750_000_000, 312_500_000]);
    assert_eq!(refusal(&set, &p), 0);
    assert_eq!(dcl(&set, &p), forecast(&file(&set), 2, 0, 1, 12));
    for off in [-1, 1] {
        assert_eq!(refusal(&set, &[p[0] + off, p[1]]), 20);
        assert_eq!(refusal(&set, &[p[0], p[1] + off]), 20);
        assert_eq!(dcl(&set, &[p[0], p[1] + off]), Err(20));
    }
}

/// The first m places of what the call for delays hands back, and no other number of places.
#[test]
fn as_many_as_years() {
    for set in [set_k(), set_of_three_solutions()] {
        let p = delays(&file(&set), 2).unwrap().p;
        for number in 0..=20 {
            let wanted = if number == 2 { 0 } else { 20 };
            assert_eq!(refusal(&set, &p[..number]), wanted, "{number}");
            assert_eq!(dcl(&set, &p[..number]).err().unwrap_or(0), wanted);
        }
        assert_eq!(refusal(&set, &[p[0]; 1_000]), 20);
    }
}

/// Sums that are met exactly do not help a delay out of range; question 12 has the same ends.
#[test]
fn range() {
    let widest = set(&[&[25, 75], &[50]], &[&[750, 250], &[750]], None);
    assert_eq!(refusal(&widest, &[3_000_000_000, -LIMIT]), 0);
    let wider = set(&[&[25, 75], &[50]], &[&[751, 249], &[750]], None);
    assert_eq!(refusal(&wider, &[3_004_000_000, -8_016_000_000]), 20);
    assert_eq!(delays(&file(&wider), 2), Err(12));
    // p(1) = 8 × 10^9, and 8.01 × 10^9.
    let late = |paid: &[i64]| set(&[&[1, 9], &[1]], &[paid, &[1]], None);
    assert_eq!(refusal(&late(&[200, 9_800]), &[200_000_000, LIMIT]), 0);
    for second in [LIMIT, LIMIT + 10_000_000] {
        assert_eq!(refusal(&late(&[199, 9_801]), &[199_000_000, second]), 20);
    }
}

/// One past the range is refused, however well the system is solved.
#[test]
fn one_past_the_range() {
    for (set, delays) in sets_past_the_range() {
        let found = Estimated::of(set.clone()).ok().unwrap().estimates;
        let p: Vec<Big> = delays.iter().copied().map(Big::from).collect();
        assert!((1..=3).all(|l| twice_distance(&found, &p[..l]) <= found.b[0]));
        assert_eq!(
            delays.map(|delay| delay.abs() > LIMIT),
            [false, true, false]
        );
        assert_eq!(refusal(&set, &delays), 20);
    }
}

/// No number of 64 bits leaves a sum.
#[test]
fn extreme_numbers() {
    let far = [-LIMIT - 1, LIMIT + 1, i64::MIN, i64::MIN + 1, i64::MAX];
    for set in [set_k(), set_of_three_solutions()] {
        let p = delays(&file(&set), 2).unwrap().p;
        for value in far.into_iter().chain([-LIMIT, LIMIT]) {
            assert_eq!(refusal(&set, &[value, p[1]]), 20, "{value}");
            assert_eq!(refusal(&set, &[p[0], value]), 20, "{value}");
            assert_eq!(refusal(&set, &[value, value]), 20, "{value}");
        }
    }
}

/// Both neighbours of a half stand, and from each of them all that follows; nothing else does.
#[test]
fn every_solution() {
    let set = set_of_three_solutions();
    let solutions = [
        [2_500_002, 2_493_749_994],
        [2_500_002, 2_493_749_995],
        [2_500_003, 2_493_749_993],
    ];
    for first in 2_499_998..2_500_008 {
        for second in 2_493_749_988..2_493_750_000 {
            let p = [first, second];
            let wanted = if solutions.contains(&p) { 0 } else { 20 };
            assert_eq!(refusal(&set, &p), wanted, "{p:?}");
        }
    }
    assert_eq!(delays(&file(&set), 2).unwrap().p[..2], solutions[0]);
    let found = Estimated::of(set.clone()).ok().unwrap().estimates;
    let big = |list: &[i64]| -> Vec<Big> { list.iter().copied().map(Big::from).collect() };
    assert_eq!(next_values(&found, &[]), big(&[2_500_002, 2_500_003]));
    let values = next_values(&found, &big(&[2_500_002]));
    assert_eq!(values, big(&[2_493_749_994, 2_493_749_995]));
    let values = next_values(&found, &big(&[2_500_003]));
    assert_eq!(values, big(&[2_493_749_993]));
    // b(0) = 0.4 S is met, and passed by one delay more.
    let twice = |p: &[i64]| twice_distance(&found, &big(p)).to_i64();
    assert_eq!(twice(&[2_500_002]), Some(400_000_000));
    assert_eq!(twice(&[2_500_003]), Some(400_000_000));
    assert_eq!(twice(&[2_500_004]), Some(1_200_000_000));
    assert_eq!(twice(&[2_500_003, 2_493_749_993]), Some(0));
}

/// The forecasts of the three differ, and all are as near to the paid reserve as they should be.
#[test]
fn forecasts_of_every_solution() {
    let mut set = set_of_three_solutions();
    set.paid[20] = 10_000_000_000;
    let found = Estimated::of(set.clone()).ok().unwrap();
    let reserves = paid_reserves(&found.estimates);
    let solutions = [
        [2_500_002, 2_493_749_994],
        [2_500_002, 2_493_749_995],
        [2_500_003, 2_493_749_993],
    ];
    let forecasts = solutions.map(|p| found.forecast(0, 1, &p).unwrap());
    assert_eq!(
        Ok(&forecasts[0]),
        forecast(&file(&set), 2, 0, 1, 12).as_ref()
    );
    assert!(forecasts[0] != forecasts[1] && forecasts[1] != forecasts[2]);
    for forecast in &forecasts {
        let years = distances(&reserves, &forecast.entries);
        assert!(years.iter().all(|year| year.within));
    }
}

/// Question 12 is not asked: where it refuses, other delays may stand, and are forecast with.
#[test]
fn where_question_12_refuses() {
    let (set, given) = set_of_other_solution();
    assert_eq!(delays(&file(&set), 3), Err(12));
    assert_eq!(forecast(&file(&set), 3, 0, 1, 30), Err(12));
    assert_eq!(refusal(&set, &given), 0);
    assert_eq!(refusal(&set, &[given[0] + 1, -LIMIT - 3, given[2]]), 20);
    let found = dcl(&set, &given).unwrap();
    let reserves = paid_reserves(&Estimated::of(set).ok().unwrap().estimates);
    let years = distances(&reserves, &found.entries);
    assert!(years.iter().all(|year| year.within));
}

/// 1 to 5 and 9 to 11 come before, whatever the delays are; of the forecast also 6, and 7 before 9.
#[test]
fn earlier_questions() {
    let counts: &[&[i64]] = &[&[80, 20], &[90]];
    let paid: &[&[i64]] = &[&[600, 400], &[660]];
    let unreported = set(&[&[0, 0], &[90]], paid, None);
    let unpaid = set(counts, &[&[0, 0], &[660]], None);
    let thin = set(&[&[1, 1000], &[90]], paid, None);
    let lists: [&[i64]; 4] = [&[], &[0, 0], &[i64::MIN; 2], &[i64::MAX; 40]];
    for delays in lists {
        for (set, wanted) in [(&unreported, 9), (&unpaid, 10), (&thin, 11)] {
            let with = |room| forecast_with_delays(&file(set), 2, 0, 1, delays, room);
            assert_eq!(refusal(set, delays), wanted);
            assert_eq!(with(12), Err(wanted));
            assert_eq!(with(11), Err(7));
        }
        let k = file(&set_k());
        assert_eq!(check_delays(&k, 21, delays), Err(1));
        assert_eq!(check_delays(&k[1..], 2, delays), Err(2));
        let with = |file: &[u8], method, basis, room| {
            forecast_with_delays(file, 2, method, basis, delays, room)
        };
        assert_eq!(with(&k[1..], 3, 1, 0), Err(2));
        assert_eq!(with(&k, 3, 1, 0), Err(6));
        assert_eq!(with(&k, 0, 2, 0), Err(6));
        assert_eq!(with(&file(&unpaid), 1, 1, 0), Err(6));
        assert_eq!(with(&k, 0, 1, 11), Err(7));
        assert_eq!(with(&k, 0, 1, 12), Err(20));
    }
}

/// 13 and 14 come behind 20, and are asked of the forecast alone.
#[test]
fn later_questions() {
    let mut met = BTreeMap::new();
    for edge in EDGES {
        let set = edge.rows.set();
        let file = file(&set);
        let Ok(Delays { p, .. }) = delays(&file, 2) else {
            assert_eq!(edge.refused, [12; 3]);
            continue;
        };
        assert_eq!(refusal(&set, &p[..2]), 0);
        for (method, wanted) in (0..).zip(edge.refused) {
            let with = |delays: &[i64]| {
                let found = forecast_with_delays(&file, 2, method, 0, delays, 12);
                found.err().unwrap_or(0)
            };
            assert_eq!(with(&p[..2]), wanted);
            assert_eq!(with(&p[..1]), 20);
            assert_eq!(with(&[p[0], i64::MIN]), 20);
            *met.entry(wanted).or_insert(0) += 1;
        }
    }
    assert!(met[&13] > 4 && met[&14] > 2, "{met:?}");
}

/// Of generated sets: the delays solved here are accepted where question 12 accepts them, and give
/// the forecast that there is; other solutions are accepted where they keep to its range. Demand 3
/// holds whichever they are.
#[test]
fn generated() {
    let mut accepted: BTreeMap<Given, u64> = BTreeMap::new();
    let mut refused = BTreeMap::new();
    let mut closest = Big::zero();
    for seed in 0..3_000 {
        let case = case(seed);
        let (m, method, basis, room) = (case.m, case.method, case.basis, case.out_len);
        let solved = delays(&case.file, m).map(|solved| solved.line);
        let plain = forecast(&case.file, m, method, basis, room);
        let estimated = read_set(&case.file, m).and_then(Estimated::of);
        let asked = set_to_forecast(&case.file, m, method, basis, room).and_then(Estimated::of);
        let reserves = estimated
            .as_ref()
            .ok()
            .map(|of| paid_reserves(&of.estimates));
        for (given, list) in given_delays(seed, &case.file, m) {
            let text = format!("seed {seed}, {given:?}, {list:?}");
            let answer = match &estimated {
                Ok(of) => of.given(&list).map(|_| of.set.line),
                Err(refusal) => Err(*refusal),
            };
            let found = match &asked {
                Ok(of) => of.forecast(method, basis, &list),
                Err(refusal) => Err(*refusal),
            };
            if let Err(refusal) = answer {
                *refused.entry(refusal).or_insert(0) += 1;
            }
            if let (Err(refusal), Err(wanted)) = (found.as_ref(), &plain) {
                let later = *wanted > 11 && [13, 14, 20].contains(refusal);
                assert!(refusal == wanted || later, "{text}");
            }
            let in_range = list.iter().all(|delay| (-LIMIT..=LIMIT).contains(delay));
            assert!(given.can_stand() || answer.is_err(), "{text}");
            match given {
                Given::Solved => {
                    let wanted = solved.map_err(|n| if n == 12 { 20 } else { n });
                    assert_eq!(answer, wanted, "{text}");
                    if solved.is_ok() {
                        assert_eq!(found, plain, "{text}");
                    }
                    assert_eq!(check_delays(&case.file, m, &list), answer);
                    let whole = forecast_with_delays(&case.file, m, method, basis, &list, room);
                    assert_eq!(whole, found, "{text}");
                }
                Given::Other => assert_eq!(answer.is_ok(), in_range, "{text}"),
                Given::Twenty => assert!(answer.is_err() || m == 20, "{text}"),
                Given::Clipped if list.iter().all(|&delay| delay > 0) => {
                    assert_eq!(answer.is_ok(), in_range, "{text}")
                }
                _ => {}
            }
            if answer.is_err() {
                continue;
            }
            *accepted.entry(given).or_default() += 1;
            let (Ok(estimated), Some(reserves)) = (&estimated, &reserves) else {
                panic!("{text}");
            };
            let entries = estimated.forecast(0, 1, &list).unwrap().entries;
            for year in distances(reserves, &entries) {
                assert!(year.within, "{text}");
                if given != Given::Solved {
                    closest = closest.max(year.closeness());
                }
            }
        }
    }
    println!("accepted {accepted:?}, refused {refused:?}, closest {closest}");
    assert!(accepted[&Given::Solved] > 1_500 && accepted[&Given::Other] > 80);
    for given in [Given::Up, Given::Down, Given::Clipped, Given::Twenty] {
        assert!(accepted.get(&given) > Some(&5), "{given:?} of {accepted:?}");
    }
    for refusal in [1, 2, 3, 4, 5, 9, 10, 11, 20] {
        assert!(
            refused.get(&refusal) > Some(&100),
            "{refusal} of {refused:?}"
        );
    }
}
