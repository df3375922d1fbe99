//! docs/RECORDS.md is current.

use records::{root, stacks, text, written_kit, written_rows, written_stacks, Seconds, COMMAND};
use std::fs::read_to_string;
use std::path::Path;

fn written() -> String {
    read_to_string(root().join("docs/RECORDS.md")).unwrap()
}

fn stale(what: String) -> ! {
    panic!("docs/RECORDS.md is not current: {what}. `{COMMAND}` in rust/ writes it again")
}

/// But for what has to be measured, the file is what the program writes today.
#[test]
fn text_is_current() {
    let written = written();
    let Some(kit) = written_kit(&written) else {
        stale("it names no kit".to_string());
    };
    let (rows, stacks) = (written_rows(&written), written_stacks(&written));
    let now = text(kit, &rows, &stacks, &Seconds::written(&written)).unwrap();
    if written != now {
        let different = written.lines().zip(now.lines()).find(|(was, is)| was != is);
        stale(format!("{different:?}"));
    }
}

/// The proved calls are those of the file, and have as many instructions, up to 3 %.
#[test]
fn instructions_are_current() {
    let rows = written_rows(&written());
    let counted = bench::instructions(Path::new(env!("CARGO_BIN_EXE_records"))).unwrap();
    if rows.len() != counted.len() {
        stale(format!("{} calls are {}", rows.len(), counted.len()));
    }
    for (row, counted) in rows.iter().zip(&counted) {
        let [was, is] = [row.instructions[0], counted.counts[0]];
        let same_call = (&row.call, row.m) == (&counted.call, counted.m);
        if !same_call || was.abs_diff(is) * 100 > was * 3 {
            let now = format!("{}, m = {}, {is} instructions", counted.call, counted.m);
            stale(format!("'{row}' is {now}"));
        }
    }
}

/// No call takes more stack than the header states, which the program sees to, and each takes what
/// the file has, up to 3 %.
#[test]
fn stack_is_current() {
    let (written, measured) = (written_stacks(&written()), stacks().unwrap());
    if written.len() != measured.len() {
        stale(format!("{} calls are {}", written.len(), measured.len()));
    }
    for (was, is) in written.iter().zip(&measured) {
        let same = was.call == is.call && was.stated == is.stated;
        if !same || was.taken.abs_diff(is.taken) * 100 > was.taken * 3 {
            stale(format!("'{was}' is '{is}'"));
        }
    }
}
