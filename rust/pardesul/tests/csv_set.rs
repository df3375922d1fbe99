//! The example that makes a set's file from CSV, on the shipped triangles and on wrong ones.

#[allow(dead_code)]
#[path = "../examples/csv_set.rs"]
mod csv_set;

use pardesul::{Triangle, TriangleSet};
use std::fs::{create_dir_all, read, write};
use std::path::{Path, PathBuf};

fn examples() -> PathBuf {
    Path::new(env!("CARGO_MANIFEST_DIR")).join("../../examples")
}

/// A folder of this test with these files.
fn folder(name: &str, files: &[(&str, &str)]) -> PathBuf {
    let folder = Path::new(env!("CARGO_TARGET_TMPDIR")).join(name);
    create_dir_all(&folder).unwrap();
    for (file, text) in files {
        write(folder.join(file), text).unwrap();
    }
    folder
}

/// A first line, and the records behind it in the order of their bytes.
fn sorted(input: &[u8]) -> (&[u8], Vec<&[u8]>) {
    let newline = input.iter().position(|&byte| byte == b'\n').unwrap();
    let (line, file) = input.split_at(newline + 1);
    let mut records: Vec<&[u8]> = file.chunks(16).collect();
    records.sort();
    (line, records)
}

/// What the example writes of the shipped triangles, with these words behind the folder.
fn made(words: &[&str]) -> Result<Vec<u8>, String> {
    let folder = examples().join("source_002");
    let words = [&[folder.to_str().unwrap()], words].concat();
    csv_set::made(&words).map_err(|error| error.to_string())
}

#[test]
fn shipped_triangles_make_the_shipped_input() {
    let shipped = read(examples().join("source_002.input")).unwrap();
    assert_eq!(sorted(&made(&["0", "1"]).unwrap()), sorted(&shipped));
}

/// The number of words says whether there is a line of cover among them, a method and a basis, or
/// both.
#[test]
fn a_line_of_cover() {
    let mut set = csv_set::read_folder(&examples().join("source_002")).unwrap();
    assert_eq!(made(&[]).unwrap(), set.to_file().unwrap());
    for line in 0..=5 {
        set.line = line;
        let (file, word) = (set.to_file().unwrap(), line.to_string());
        assert!(file.chunks(16).all(|record| u64::from(record[3]) == line));
        assert_eq!(made(&[&word]).unwrap(), file);
        let input = [b"10 2 1\n", &file[..]].concat();
        assert_eq!(made(&["2", "1", &word]).unwrap(), input);
    }
    assert_eq!(made(&["2", "1"]).unwrap(), made(&["2", "1", "0"]).unwrap());
}

#[test]
fn wrong_words_are_named() {
    let said = |words: &[&str]| made(words).unwrap_err();
    for line in ["6", "256", "18446744073709551615"] {
        assert!(said(&[line]).starts_with("refused 3: "), "{line}");
        assert!(said(&["0", "1", line]).starts_with("refused 3: "), "{line}");
    }
    for word in ["five", "", "-1", "18446744073709551616"] {
        let wanted = format!("{word}: ");
        assert!(said(&[word]).starts_with(&wanted), "{word}");
        assert!(said(&["0", "1", word]).starts_with(&wanted), "{word}");
    }
    assert!(said(&["0", "1", "5", "5"]).starts_with("usage: csv_set "));
    let error = csv_set::made(&[]).unwrap_err().to_string();
    assert!(error.starts_with("usage: csv_set "));
}

#[test]
fn incurred_is_read_where_it_is_there() {
    let files = [
        ("counts.csv", "80,20\n90,\n"),
        ("paid.csv", "600, 400\r\n660\r\n"),
        ("incurred.csv", "900,100\n1080,\n"),
    ];
    let set = TriangleSet {
        m: 2,
        line: 0,
        counts: Triangle::from_rows(&[&[80, 20], &[90]]),
        paid: Triangle::from_rows(&[&[600, 400], &[660]]),
        incurred: Some(Triangle::from_rows(&[&[900, 100], &[1_080]])),
    };
    assert_eq!(csv_set::read_folder(&folder("k", &files)).unwrap(), set);
}

#[test]
fn wrong_files_are_named() {
    let counts = ("counts.csv", "80,20\n90,\n");
    for (name, paid, said) in [
        (
            "past",
            "600,400\n660,1\n",
            "paid.csv, line 2: 2 cells, and not 1",
        ),
        (
            "short",
            "600\n660\n",
            "paid.csv, line 1: 1 cells, and not 2",
        ),
        ("gap", "600,\n660\n", "paid.csv, line 1: 1 cells, and not 2"),
        ("word", "600,x\n660\n", "paid.csv, line 1: invalid digit"),
        (
            "rows",
            "600,400\n",
            "paid.csv has 1 lines, and counts.csv 2",
        ),
    ] {
        let folder = folder(name, &[counts, ("paid.csv", paid)]);
        let error = csv_set::read_folder(&folder).unwrap_err().to_string();
        assert!(error.starts_with(said), "{name}: {error}");
    }
    let long = "1\n".repeat(21);
    let folder = folder("long", &[("counts.csv", &long), ("paid.csv", &long)]);
    let error = csv_set::read_folder(&folder).unwrap_err().to_string();
    assert!(error.starts_with("counts.csv has 21 lines"), "{error}");
}
