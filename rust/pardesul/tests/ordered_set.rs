//! The example that brings the records of a set's file into the writer's order.

#[allow(dead_code)]
#[path = "../examples/ordered_set.rs"]
mod ordered_set;

use pardesul::{Triangle, TriangleSet};
use std::fs;
use std::path::{Path, PathBuf};

fn path(name: &str) -> PathBuf {
    Path::new(env!("CARGO_TARGET_TMPDIR")).join(name)
}

fn set(line: u64) -> TriangleSet {
    TriangleSet {
        m: 3,
        line,
        counts: Triangle::from_rows(&[&[80, 20, 0], &[90, 25], &[100]]),
        paid: Triangle::from_rows(&[&[600, 400, 50], &[660, 430], &[700]]),
        incurred: Some(Triangle::from_rows(&[&[900, -100, 50], &[990, 0], &[800]])),
    }
}

#[test]
fn every_order_gives_the_same_file() {
    let file = set(5).to_file().unwrap();
    let mut records: Vec<&[u8]> = file.chunks(16).collect();
    for turn in 0..records.len() {
        records.rotate_left(1);
        records.swap(0, turn / 2);
        let path = path("any_order");
        fs::write(&path, records.concat()).unwrap();
        assert_eq!(ordered_set::ordered(&path, "3").unwrap(), file);
    }
}

/// A file keeps its line of cover, and has one.
#[test]
fn lines_stay() {
    let path = path("any_line");
    for line in 0..=5 {
        let mut file = set(line).to_file().unwrap();
        fs::write(&path, &file).unwrap();
        assert_eq!(ordered_set::ordered(&path, "3").unwrap(), file);
        file[16 + 3] = (line as u8 + 1) % 6;
        fs::write(&path, &file).unwrap();
        let said = ordered_set::ordered(&path, "3").unwrap_err().to_string();
        assert!(said.starts_with("refused 3"), "{said}");
    }
}

#[test]
fn what_is_wrong_is_named() {
    let path = path("no_set");
    fs::write(&path, [0; 95]).unwrap();
    let said = |m| ordered_set::ordered(&path, m).unwrap_err().to_string();
    assert!(said("two").starts_with("two: invalid digit"));
    assert!(said("21").starts_with("refused 1"));
    assert!(said("2").starts_with("refused 2"));
    let missing = path.with_extension("missing");
    let said = ordered_set::ordered(&missing, "2").unwrap_err().to_string();
    assert!(said.contains("no_set.missing: "));
}
