//! docs/TRUST.md names theorems that are there.

use records::root;
use std::fs::read_to_string;

/// The texts between backquotes.
fn quoted(cell: &str) -> Vec<&str> {
    cell.split('`').skip(1).step_by(2).collect()
}

#[test]
fn theorems_are_there() {
    let trust = read_to_string(root().join("docs/TRUST.md")).unwrap();
    let rows = trust.lines().filter(|line| line.starts_with("| "));
    let mut count = 0;
    for row in rows.skip(1) {
        let cells: Vec<&str> = row.split('|').collect();
        let [_, _, files, theorems, _] = cells[..] else {
            panic!("{row}");
        };
        let texts: Vec<String> = quoted(files)
            .iter()
            .map(|file| root().join("crates").join(file).with_extension("antt"))
            .map(|path| read_to_string(&path).unwrap_or_else(|_| panic!("no {}", path.display())))
            .collect();
        for theorem in quoted(theorems) {
            let stated = format!("pub {theorem} :");
            let stated = |line: &str| line.trim_start().starts_with(&stated);
            let found = texts.iter().any(|text| text.lines().any(stated));
            assert!(found, "{theorem} is not in {files}");
            count += 1;
        }
    }
    assert!(count >= 20);
}
