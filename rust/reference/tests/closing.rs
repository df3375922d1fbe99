//! The tally, and what `closing` prints.

use reference::examples::{set, set_k_without_incurred};
use reference::generate::{case, closing_input, file};
use reference::*;

fn text(first_line: &[u8], file: &[u8]) -> String {
    String::from_utf8(closing(&[first_line, file].concat())).unwrap()
}

#[test]
fn tally_adds_one_cell() {
    let tally = Tally::zero().add(1, 5, -7).add(38, 1, 2).add(1, 10, 20);
    assert_eq!((tally.rbns[0], tally.ibnr[0]), (15, 13));
    assert_eq!((tally.rbns[37], tally.ibnr[37]), (1, 2));
    assert!(tally.rbns[1..37].iter().all(|&amount| amount == 0));
}

#[test]
fn tally_stays_the_same() {
    let tally = Tally::zero().add(3, i64::MAX, i64::MIN);
    for t in [0, -1, 39, i64::MAX, i64::MIN] {
        assert_eq!(tally.clone().add(t, 1, 1), tally);
    }
    assert_eq!(tally.clone().add(3, 1, 1), tally);
    assert_eq!(tally.clone().add(3, -1, -1), tally);
    assert_eq!(tally.clone().add(3, 1, -1), tally);
    let next = tally.clone().add(3, -1, 1);
    assert_eq!((next.rbns[2], next.ibnr[2]), (i64::MAX - 1, i64::MIN + 1));
}

#[test]
fn first_lines() {
    let file = file(&set_k_without_incurred());
    let good = text(b"2 0 1\n", &file);
    assert!(good.starts_with("1 337 165 502\n"));
    assert_eq!(text(b"0002 0000 001\n", &file), good);
    let wrong: [&[u8]; 17] = [
        b"",
        b"\n",
        b"2 0 1",
        b"2 0 1 \n",
        b" 2 0 1\n",
        b"2  0 1\n",
        b"2 0\n",
        b"2 0 1 0\n",
        b"2 0 1\r\n",
        b"00002 0 1\n",
        b"2 0 00001\n",
        b"+2 0 1\n",
        b"2 -0 1\n",
        b"2\t0 1\n",
        b"2 0 x\n",
        b"2 0 \n",
        b"\n2 0 1\n",
    ];
    for line in wrong {
        assert_eq!(text(line, &file), "refused 1\n", "{line:?}");
    }
    assert_eq!(text(b"9999 0 1\n", &file), "refused 1\n");
    assert_eq!(text(b"0 0 1\n", &file), "refused 1\n");
    assert_eq!(text(b"3 9 9\n", &file), "refused 2\n");
    assert_eq!(text(b"2 3 1\n", &file), "refused 6\n");
    assert_eq!(text(b"2 0 2\n", &file), "refused 6\n");
    assert_eq!(text(b"2 1 1\n", &file), "refused 6\n");
    assert_eq!(text(b"2 0 1\n", b"\n"), "refused 2\n");
    assert_eq!(text(b"2 0 1\n", &vec![0; 100_000]), "refused 2\n");
}

#[test]
fn negative_amounts() {
    let widest = set(&[&[25, 75], &[50]], &[&[750, 250], &[750]], None);
    // Year 1, delay 2: r(1000 × 0.75 × -8) = -6000; year 2, delay 2: r(1000 × 0.75 × -8).
    let expected = "1 -8000 2250 -5750\n2 0 -6000 -6000\nT -8000 -3750 -11750\n";
    assert_eq!(text(b"2 0 1\n", &file(&widest)), expected);
}

/// Each line's sums, against the entries added up by calendar year another way.
#[test]
fn lines_add_up_the_entries() {
    let mut printed = 0;
    for seed in 0..1_500 {
        let case = case(seed);
        let Ok(found) = forecast(&case.file, case.m, case.method, case.basis, usize::MAX) else {
            continue;
        };
        let (m, width) = (case.m as usize, 2 * case.m as usize - 1);
        let mut expected = String::new();
        let (mut all_rbns, mut all_ibnr) = (0, 0);
        for t in 1..=2 * m - 2 {
            let of_year = |part: usize| -> i64 {
                let cells = found.entries.chunks(2).enumerate();
                let in_year = cells.filter(|(at, _)| at / width + 1 + at % width == m + t);
                in_year.map(|(_, cell)| cell[part]).sum()
            };
            let (rbns, ibnr) = (of_year(0), of_year(1));
            expected += &format!("{t} {rbns} {ibnr} {}\n", rbns + ibnr);
            all_rbns += rbns;
            all_ibnr += ibnr;
        }
        expected += &format!("T {all_rbns} {all_ibnr} {}\n", all_rbns + all_ibnr);
        let line = format!("{m} {} {}\n", case.method, case.basis);
        assert_eq!(text(line.as_bytes(), &case.file), expected);
        printed += 1;
    }
    assert!(printed > 500);
}

#[test]
fn generated_inputs_print_and_refuse() {
    let mut refused_1 = 0;
    let mut printed = 0;
    for seed in 0..1_000 {
        let text = String::from_utf8(closing(&closing_input(seed))).unwrap();
        refused_1 += usize::from(text == "refused 1\n");
        printed += usize::from(!text.starts_with("refused"));
    }
    assert!(refused_1 > 100 && printed > 200, "{refused_1} {printed}");
}
