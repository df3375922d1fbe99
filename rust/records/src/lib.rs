//! docs/RECORDS.md: what was found and measured. The program of this crate writes it, and the tests
//! say whether it is current.

mod figures;
mod halves;
mod kit;
mod source_002;
mod speed;
mod stack;

pub use figures::Seconds;
pub use kit::{kit, written_kit};
pub use speed::written_rows;
pub use stack::{stacks, written_stacks, Stack};

use bench::Row;
use std::path::PathBuf;

/// What writes the file again, in `rust/`.
pub const COMMAND: &str = "cargo run --release --offline -p records";

/// The folder of the repository.
pub fn root() -> PathBuf {
    PathBuf::from(env!("CARGO_MANIFEST_DIR")).join("../..")
}

/// The text, of what was measured with a kit; the rest is calculated and counted now.
pub fn text(
    kit: &str,
    rows: &[Row],
    stacks: &[Stack],
    seconds: &Seconds,
) -> Result<String, String> {
    let sections = [
        source_002::section().map_err(|refusal| refusal.to_string())?,
        halves::section(),
        speed::section(rows),
        stack::section(stacks),
        figures::section(seconds).map_err(|error| error.to_string())?,
    ];
    Ok(format!(
        "\
# Records

Written by `{COMMAND}` in `rust/`, after `rt lib` in
`crates/c_api`; tests of the gate say whether it is current.

{}

{}",
        kit::line(kit),
        sections.join("\n")
    ))
}

/// The lines of a section of the text.
fn lines_of<'a>(text: &'a str, title: &'a str) -> impl Iterator<Item = &'a str> {
    text.lines()
        .skip_while(move |line| line.strip_prefix("## ") != Some(title))
        .skip(1)
        .take_while(|line| !line.starts_with("## "))
}
