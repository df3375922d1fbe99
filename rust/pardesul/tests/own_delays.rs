//! The example that holds delays of one's own to a set, its table in README.md and the shipped
//! delays.

#[allow(dead_code)]
#[path = "../examples/own_delays.rs"]
mod own_delays;

use own_delays::{csv_set, first_off, read_delays};
use pardesul::{Basis, Method, Triangle, TriangleSet};
use std::fs::{read_to_string, write};
use std::path::{Path, PathBuf};

const K: [i64; 2] = [750_000_000, 312_500_000];

fn root() -> PathBuf {
    Path::new(env!("CARGO_MANIFEST_DIR")).join("../..")
}

fn set(counts: &[&[i64]], paid: &[&[i64]]) -> TriangleSet {
    TriangleSet {
        m: counts.len(),
        line: 0,
        counts: Triangle::from_rows(counts),
        paid: Triangle::from_rows(paid),
        incurred: None,
    }
}

fn set_k() -> TriangleSet {
    set(&[&[80, 20], &[90]], &[&[600, 400], &[660]])
}

fn table(set: &TriangleSet, delays: &[i64]) -> Vec<String> {
    let table = own_delays::table(set, Method::Dcl, Basis::Estimated, delays);
    table.unwrap().lines().map(str::to_string).collect()
}

#[test]
fn table_of_the_readme() {
    let readme = read_to_string(root().join("README.md")).unwrap();
    let shown: Vec<&str> = readme
        .lines()
        .skip_while(|line| !line.contains("RBNS, yours"))
        .map_while(|line| line.strip_prefix("    "))
        .collect();
    assert_eq!(shown, table(&set_k(), &K));
}

/// The shipped delays are those solved here, so both halves of the table are the same; the totals
/// are those of the shipped page.
#[test]
fn shipped_delays() {
    let folder = root().join("examples/source_002");
    let set = csv_set::read_folder(&folder).unwrap();
    let delays = read_delays(&folder.join("delays.csv")).unwrap();
    assert_eq!(delays, set.delays().unwrap().p);
    assert_eq!(first_off(&set, &delays), Ok(None));
    let table = table(&set, &delays);
    assert_eq!(table.len(), 12);
    assert!(table[1..].iter().all(|line| line[4..36] == line[36..]));
    let totals: Vec<&str> = table[11].split_whitespace().collect();
    assert_eq!(totals[..3], ["ALL", "70537968", "5695357"]);
}

/// Either neighbour of a half, and what follows from it.
#[test]
fn another_solution() {
    let tied = set(&[&[2, 3], &[2]], &[&[1_000_001, 998_999_999], &[1_000_001]]);
    let given = [2_500_002, 2_493_749_995];
    assert_eq!(first_off(&tied, &given), Ok(None));
    let table = table(&tied, &given);
    let amounts: Vec<&str> = table[1].split_whitespace().collect();
    assert_eq!(amounts, ["1", "1496249996", "0", "1496249997", "0"]);
}

/// Where the delays solved here are out of range there are only those given.
#[test]
fn nothing_beside() {
    let early = [251_826_087, 84_000_000, 664_173_913];
    let paid: [&[i64]; 3] = [&early, &early[..2], &early[..1]];
    let set = set(&[&[8, 23, 69], &[8, 23], &[8]], &paid);
    assert_eq!(set.delays().unwrap_err().number(), 12);
    let given = [3_147_826_087, -8_000_000_000, 4_152_173_912];
    let table = table(&set, &given);
    assert_eq!(table.len(), 5);
    assert!(table[1..]
        .iter()
        .all(|line| line[4..36].trim().starts_with('-')));
}

#[test]
fn what_is_off() {
    let said = |delays: &[i64]| first_off(&set_k(), delays).unwrap().unwrap();
    assert_eq!(first_off(&set_k(), &K), Ok(None));
    assert_eq!(said(&[]), "0 of them, and not 2");
    assert_eq!(said(&[K[0], K[1], 0]), "3 of them, and not 2");
    let far = "delay 1 is 8000000001, out of range";
    assert_eq!(said(&[K[0], 8_000_000_001]), far);
    let off = "delay 1 is 312500001, and 312500000.0 is due";
    assert_eq!(said(&[K[0], 312_500_001]), off);
    let off = "delay 0 is 750000002, and 750000000.0 is due";
    assert_eq!(said(&[750_000_002, K[1]]), off);
    assert_eq!(said(&[i64::MIN, i64::MAX])[..10], *"delay 0 is");
}

/// What the set is refused for comes first, whatever the delays are.
#[test]
fn refusals() {
    let mut set = set_k();
    set.counts.set(2, 0, 0);
    for delays in [&K[..], &[], &[i64::MIN; 30]] {
        assert_eq!(first_off(&set, delays).unwrap_err().number(), 9);
    }
    let table = |method| own_delays::table(&set_k(), method, Basis::Estimated, &K);
    assert_eq!(table(Method::Idcl).unwrap_err().number(), 6);
}

#[test]
fn wrong_lines_are_named() {
    let path = Path::new(env!("CARGO_TARGET_TMPDIR")).join("own_delays.csv");
    write(&path, "750000000\r\n 312500000 \r\n").unwrap();
    assert_eq!(read_delays(&path).unwrap(), K);
    write(&path, "750000000\n0.3125\n").unwrap();
    let said = read_delays(&path).unwrap_err();
    assert!(
        said.ends_with("own_delays.csv, line 2: invalid digit found in string"),
        "{said}"
    );
    assert!(read_delays(&path.with_extension("none")).is_err());
}
