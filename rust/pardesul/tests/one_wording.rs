//! The header, README.md and this crate say the same of refusals, methods, bases and the version.

use pardesul::{Basis, Method, Refusal};
use std::collections::BTreeMap;
use std::fs::read_to_string;
use std::path::Path;

fn text(path: &str) -> String {
    let root = Path::new(env!("CARGO_MANIFEST_DIR")).join("../..");
    read_to_string(root.join(path)).unwrap()
}

/// The header's constants that start so: the number of each, and the words of the comment before
/// it.
fn constants(start: &str) -> Vec<(u64, String)> {
    let mut words = String::new();
    let mut found = Vec::new();
    for line in text("include/pardesul.h").lines().map(str::trim) {
        if let Some(comment) = line.strip_prefix("/*") {
            words.clear();
            words += comment;
        } else if let Some(comment) = line.strip_prefix('*') {
            words += comment;
        } else if line.starts_with(start) {
            let (_, number) = line.split_once(" = ").expect("a constant has a number");
            let (number, _) = number.split_once(',').expect("and a comma");
            let words = words.trim().trim_end_matches("*/").trim_end();
            found.push((number.parse().unwrap(), words.to_string()));
        }
    }
    found
}

fn wanted() -> Vec<(u64, String)> {
    Refusal::all()
        .map(|refusal| (refusal.number(), refusal.message().to_string()))
        .collect()
}

#[test]
fn refusals_of_the_header() {
    assert_eq!(wanted().len(), 20);
    assert_eq!(constants("PARDESUL_REFUSED_"), wanted());
}

#[test]
fn refusals_of_the_readme() {
    let readme = text("README.md");
    let lines = readme
        .lines()
        .skip_while(|line| *line != "## Refusal numbers")
        .skip_while(|line| !line.starts_with("1. "))
        .take_while(|line| !line.is_empty());
    let mut found: Vec<(u64, String)> = Vec::new();
    for line in lines {
        match (line.split_once(". "), found.last_mut()) {
            (_, Some((_, words))) if line.starts_with(' ') => {
                *words += " ";
                *words += line.trim();
            }
            (Some((number, words)), _) => found.push((number.parse().unwrap(), words.to_string())),
            _ => panic!("{line}"),
        }
    }
    assert_eq!(found, wanted());
}

#[test]
fn methods_and_bases_of_the_header() {
    let numbers = |start| constants(start).into_iter().map(|(number, _)| number);
    let methods = [Method::Dcl, Method::Bdcl, Method::Idcl].map(|method| method as u64);
    assert!(numbers("PARDESUL_METHOD_").eq(methods));
    let bases = [Basis::Actual, Basis::Estimated].map(|basis| basis as u64);
    assert!(numbers("PARDESUL_BASIS_").eq(bases));
}

#[test]
fn version_of_the_header() {
    let header = text("include/pardesul.h");
    let defined: BTreeMap<&str, &str> = header
        .lines()
        .filter_map(|line| line.strip_prefix("#define ")?.split_once(' '))
        .collect();
    let wanted = env!("CARGO_PKG_VERSION")
        .split('.')
        .fold(0, |sum, part| 1_000 * sum + part.parse::<u64>().unwrap());
    assert_eq!(defined["PARDESUL_VERSION"].parse(), Ok(wanted));
}
