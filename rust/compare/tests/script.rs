//! The script `closing`, which has `rt` bring the program up to date and runs it: what it prints
//! and the status that it ends with.

use std::env;
use std::fs::{create_dir_all, read, set_permissions, write, File, Permissions};
use std::os::unix::fs::PermissionsExt;
use std::path::{Path, PathBuf};
use std::process::{Command, Output, Stdio};

fn root() -> PathBuf {
    PathBuf::from(env!("CARGO_MANIFEST_DIR")).join("../..")
}

fn example(name: &str) -> PathBuf {
    root().join("examples").join(name)
}

/// The script on these arguments, and nothing on standard input.
fn script(arguments: &[PathBuf]) -> Command {
    let program = root().join("crates/closing/out/closing");
    assert!(program.exists(), "{} is not built", program.display());
    let mut command = Command::new(root().join("closing"));
    command.args(arguments).stdin(Stdio::null());
    command
}

fn ends_with(output: &Output, status: i32) {
    let said = String::from_utf8_lossy(&output.stderr);
    assert_eq!(output.status.code(), Some(status), "{said}");
}

/// A forecast, of a file that is named or of standard input. The first run may have to prove and
/// build; the next one has nothing to say of that.
#[test]
fn a_forecast() {
    let wanted = read(example("source_002.output")).unwrap();
    let named = script(&[example("source_002.input")]).output().unwrap();
    let input = File::open(example("source_002.input")).unwrap();
    let piped = script(&[]).stdin(input).output().unwrap();
    for output in [&named, &piped] {
        ends_with(output, 0);
        assert!(output.stdout == wanted);
    }
    assert!(piped.stderr.is_empty());
}

#[test]
fn a_refusal() {
    let output = script(&[]).output().unwrap();
    ends_with(&output, 0);
    assert_eq!(output.stdout, b"refused 1\n");
}

#[test]
fn an_input_that_cannot_be_read() {
    for input in [root(), example("no such file")] {
        let output = script(&[input]).output().unwrap();
        ends_with(&output, 1);
        assert!(output.stdout.is_empty());
        assert!(!output.stderr.is_empty());
    }
}

#[test]
fn an_answer_that_cannot_be_written() {
    let full = File::options().write(true).open("/dev/full").unwrap();
    let output = script(&[example("set_k.input")])
        .stdout(full)
        .output()
        .unwrap();
    ends_with(&output, 1);
    let said = String::from_utf8(output.stderr).unwrap();
    assert!(said.contains("closing: No space left"), "{said}");
}

/// Nobody takes the answer: the pipe's other end is closed before the program writes.
#[test]
fn a_closed_pipe() {
    let mut child = script(&[])
        .stdin(Stdio::piped())
        .stdout(Stdio::piped())
        .stderr(Stdio::piped())
        .spawn()
        .unwrap();
    drop(child.stdout.take());
    drop(child.stdin.take());
    ends_with(&child.wait_with_output().unwrap(), 1);
}

#[test]
fn wrong_arguments() {
    let output = script(&[example("set_k.input"), example("set_k.input")])
        .output()
        .unwrap();
    ends_with(&output, 2);
    assert!(output.stdout.is_empty());
}

/// Where `rt` proves nothing, the program of an earlier run is not run.
#[test]
fn a_stale_program() {
    let folder = Path::new(env!("CARGO_TARGET_TMPDIR")).join("refusing");
    create_dir_all(&folder).unwrap();
    let rt = folder.join("rt");
    write(&rt, "#!/bin/sh\necho 'rt: model NOT PROVED'\nexit 1\n").unwrap();
    set_permissions(&rt, Permissions::from_mode(0o755)).unwrap();
    let path = env::var("PATH").unwrap();
    let output = script(&[example("set_k.input")])
        .env("PATH", format!("{}:{path}", folder.display()))
        .output()
        .unwrap();
    ends_with(&output, 1);
    assert!(output.stdout.is_empty());
    let said = String::from_utf8(output.stderr).unwrap();
    assert!(said.contains("rt: model NOT PROVED"), "{said}");
}
