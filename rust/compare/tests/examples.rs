//! The examples of the documents and the edges of the questions, through the library.

use std::fs::read;
use std::path::Path;

#[test]
fn printed_examples() {
    match compare::examples() {
        Ok(count) => assert!(count >= 17),
        Err(difference) => panic!("{difference}"),
    }
}

#[test]
fn edges_of_questions() {
    match compare::edges() {
        Ok(count) => assert!(count >= 20),
        Err(difference) => panic!("{difference}"),
    }
}

/// The shipped page is that of the shipped input, by the library and by the calculation.
#[test]
fn shipped_page() {
    let examples = Path::new(env!("CARGO_MANIFEST_DIR")).join("../../examples");
    let input = read(examples.join("source_002.input")).unwrap();
    let file = input.strip_prefix(b"10 0 1\n").unwrap();
    let shipped = read(examples.join("source_002.page")).unwrap();
    let mut page = vec![0; shipped.len()];
    assert_eq!(pardesul::calls::closing_page(file, 10, 0, 1, &mut page), 0);
    assert!(page == shipped);
    let calculated = reference::closing_page(file, 10, 0, 1, shipped.len()).unwrap();
    assert!(calculated.into_bytes() == shipped);
}
