//! The example that makes a set's file from a claims journal in CSV, on the shipped journal and on
//! wrong ones.

#[allow(dead_code)]
#[path = "../examples/journal_set.rs"]
mod journal_set;

use pardesul::{respond, Triangle, TriangleSet};
use std::fs::{read, write};
use std::path::{Path, PathBuf};

fn examples() -> PathBuf {
    Path::new(env!("CARGO_MANIFEST_DIR")).join("../../examples")
}

/// A file of this test with this text.
fn file(name: &str, text: &str) -> PathBuf {
    let path = Path::new(env!("CARGO_TARGET_TMPDIR")).join(name);
    write(&path, text).unwrap();
    path
}

/// What the example writes of the shipped journal, with these words behind the file.
fn made(words: &[&str]) -> Result<Vec<u8>, String> {
    let file = examples().join("journal.csv");
    let words = [&[file.to_str().unwrap()], words].concat();
    journal_set::made(&words).map_err(|error| error.to_string())
}

/// The shipped journal is one of set K without incurred, of which line of cover the words say.
#[test]
fn shipped_journal_makes_the_shipped_forecast() {
    let mut set = TriangleSet {
        m: 2,
        line: 0,
        counts: Triangle::from_rows(&[&[80, 20], &[90]]),
        paid: Triangle::from_rows(&[&[600, 400], &[660]]),
        incurred: None,
    };
    let path = examples().join("journal.csv");
    assert_eq!(journal_set::read_set(&path, "2").unwrap(), set);
    assert_eq!(made(&["2"]).unwrap(), set.to_file().unwrap());
    let shipped = read(examples().join("set_k.output")).unwrap();
    for line in 0..=5 {
        set.line = line;
        let (file, word) = (set.to_file().unwrap(), line.to_string());
        assert_eq!(made(&["2", &word]).unwrap(), file);
        let input = made(&["2", "0", "1", &word]).unwrap();
        assert_eq!(input, [b"2 0 1\n", &file[..]].concat());
        assert_eq!(respond(&input), shipped);
    }
    assert_eq!(made(&["2", "0", "1"]), made(&["2", "0", "1", "0"]));
}

#[test]
fn fields_may_be_spaced_and_a_report_has_no_amount() {
    let text = "17,report,1,1\r\n 18, report, 1, 1,\r\n17,paid,1,2,40\n19,report,2,2,0";
    let set = journal_set::read_set(&file("spaced.csv", text), "2").unwrap();
    assert_eq!(set.counts, Triangle::from_rows(&[&[2, 0], &[1]]));
    assert_eq!(set.paid, Triangle::from_rows(&[&[0, 40], &[0]]));
    let set = journal_set::read_set(&file("empty.csv", ""), "2").unwrap();
    assert_eq!((set.counts, set.paid), (Triangle::zero(), Triangle::zero()));
}

#[test]
fn wrong_lines_are_named() {
    let too_many: String = (0..=4_096)
        .map(|claim| format!("{claim},report,1,1,0\n"))
        .collect();
    let line = |text: &str| format!("17,report,1,1,0\n{text}\n18,report,1,1,0\n");
    for (name, text, said) in [
        ("few", line("17,paid,1"), "line 2: 3 fields, and not 5"),
        (
            "many",
            line("17,paid,1,1,5,6"),
            "line 2: 6 fields, and not 5",
        ),
        ("blank", line(""), "line 2: 1 fields, and not 5"),
        (
            "kind",
            line("17,pay,1,1,5"),
            "line 2: 'pay' is neither report nor paid",
        ),
        (
            "report",
            line("18,report,1,1,5"),
            "line 2: a report has no amount",
        ),
        ("amount", line("17,paid,1,1,"), "line 2: '': cannot parse"),
        ("word", line("17,paid,1,1,x"), "line 2: 'x': invalid digit"),
        (
            "claim",
            line("-1,paid,1,1,5"),
            "line 2: '-1': invalid digit",
        ),
        (
            "year",
            line("17,paid,256,1,5"),
            "line 2: '256': number too large",
        ),
        ("field", line("17,paid,1,3,5"), "line 2: refused 16"),
        ("twice", line("17,report,1,1,0"), "line 2: refused 17"),
        ("falls", line("19,report,1,2,0"), "line 3: refused 18"),
        ("long", too_many, "line 4097: refused 16"),
    ] {
        let path = file(&format!("wrong_{name}.csv"), &text);
        let error = journal_set::read_set(&path, "2").unwrap_err().to_string();
        let wanted = format!("{}: {said}", path.display());
        assert!(error.starts_with(&wanted), "{error}");
    }
}

#[test]
fn wrong_words_are_named() {
    let path = examples().join("journal.csv");
    let said = |path: &Path, m| journal_set::read_set(path, m).unwrap_err().to_string();
    assert!(said(&path, "two").starts_with("'two': invalid digit"));
    assert!(said(&path, "21").starts_with("refused 1: "));
    assert!(said(&examples().join("none.csv"), "2").contains("none.csv: "));
    let said = |words: &[&str]| made(words).unwrap_err();
    assert!(said(&["2", "6"]).starts_with("refused 3: "));
    assert!(said(&["2", "0", "1", "256"]).starts_with("refused 3: "));
    assert!(said(&["2", "five"]).starts_with("five: invalid digit"));
    assert!(said(&["2", "0", "1", "-1"]).starts_with("-1: invalid digit"));
    assert!(said(&[]).starts_with("usage: journal_set "));
    assert!(said(&["2", "0", "1", "5", "5"]).starts_with("usage: journal_set "));
}
