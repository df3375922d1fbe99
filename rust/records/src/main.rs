//! Measures, and writes docs/RECORDS.md. Of the gate's last run it takes the seconds, where the
//! logs are there; else those that are written stay.

use records::{kit, root, stacks, text, Seconds, COMMAND};
use std::fs;

fn main() -> Result<(), String> {
    if bench::asked_to_count() {
        bench::count();
        return Ok(());
    }
    if cfg!(debug_assertions) {
        return Err(format!("only a release build may write: {COMMAND}"));
    }
    let path = root().join("docs/RECORDS.md");
    let mut seconds = Seconds::written(&fs::read_to_string(&path).unwrap_or_default());
    seconds.update();
    let stacks = stacks()?;
    let text = text(&kit()?, &bench::rows()?, &stacks, &seconds)?;
    fs::write(path, text).map_err(|error| error.to_string())
}
