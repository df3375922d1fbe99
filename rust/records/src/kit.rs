//! The kit with which the library was proved and built.

use std::process::Command;

const LINE: &str = "The kit is ";

/// What `rt version` says.
pub fn kit() -> Result<String, String> {
    let output = Command::new("rt")
        .arg("version")
        .output()
        .map_err(|error| format!("rt does not start: {error}"))?;
    let said = String::from_utf8_lossy(&output.stdout).trim().to_string();
    match output.status.success() && !said.is_empty() {
        true => Ok(said),
        false => Err(format!("rt version: {}", output.status)),
    }
}

/// The line that names a kit.
pub fn line(kit: &str) -> String {
    format!("{LINE}`{kit}`.")
}

/// The kit that the text names.
pub fn written_kit(text: &str) -> Option<&str> {
    text.lines()
        .find_map(|line| line.strip_prefix(LINE))
        .map(|rest| rest.trim_matches(['`', '.']))
}
