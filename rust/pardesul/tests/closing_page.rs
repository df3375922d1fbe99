//! The example that prints a closing page, and the shipped page in README.md.

#[allow(dead_code)]
#[path = "../examples/closing_page.rs"]
mod closing_page;

use std::fs::read_to_string;
use std::path::{Path, PathBuf};

fn root() -> PathBuf {
    Path::new(env!("CARGO_MANIFEST_DIR")).join("../..")
}

fn shipped() -> String {
    read_to_string(root().join("examples/source_002.page")).unwrap()
}

#[test]
fn shipped_triangles_make_the_shipped_page() {
    let folder = root().join("examples/source_002");
    assert_eq!(closing_page::page(&folder, "0", "1").unwrap(), shipped());
}

/// README.md shows its first lines and its last ones, with dots between them.
#[test]
fn page_of_the_readme() {
    let readme = read_to_string(root().join("README.md")).unwrap();
    let shown: Vec<&str> = readme
        .lines()
        .skip_while(|line| !line.starts_with("    YEAR"))
        .map_while(|line| line.strip_prefix("    "))
        .collect();
    let dots = shown.iter().position(|line| line.trim() == "..").unwrap();
    let (first, last) = (&shown[..dots], &shown[dots + 1..]);
    let page = shipped();
    let page: Vec<&str> = page.lines().collect();
    assert!(page.starts_with(first) && page.ends_with(last));
    assert!(first.len() > 1 && last.len() > 1);
}

#[test]
fn wrong_words_are_named() {
    let said = |method, basis| {
        let folder = root().join("examples/source_002");
        let error = closing_page::page(&folder, method, basis).unwrap_err();
        error.to_string()
    };
    assert!(said("x", "1").starts_with("x: invalid digit"));
    assert!(said("3", "1").starts_with("refused 6"));
    assert!(said("0", "2").starts_with("refused 6"));
    assert!(said("1", "1").starts_with("refused 6"));
}
