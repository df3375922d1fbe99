//! The program `closing`, as the proof's compiler built it: what it prints for an input, however
//! the input arrives.

use std::collections::BTreeSet;
use std::fs::{read, read_dir, File};
use std::io::Write;
use std::path::PathBuf;
use std::process::{Command, Output, Stdio};

use reference::closing;
use reference::generate::{any_set, closing_input, file, Random};

fn root() -> PathBuf {
    PathBuf::from(env!("CARGO_MANIFEST_DIR")).join("../..")
}

fn program() -> Command {
    let path = root().join("crates/closing/out/closing");
    assert!(path.exists(), "{} is not built", path.display());
    Command::new(path)
}

/// Runs the program on an input that arrives in pieces of this many bytes. The program may stop
/// reading before the input ends, so a piece that nobody takes is no failure.
fn run_in_pieces(input: &[u8], piece: usize) -> Output {
    let mut child = program()
        .stdin(Stdio::piped())
        .stdout(Stdio::piped())
        .stderr(Stdio::piped())
        .spawn()
        .unwrap();
    let mut stdin = child.stdin.take().unwrap();
    for part in input.chunks(piece) {
        if stdin.write_all(part).is_err() {
            break;
        }
    }
    drop(stdin);
    child.wait_with_output().unwrap()
}

fn same_text(input: &[u8], piece: usize) {
    let output = run_in_pieces(input, piece);
    let expected = closing(input);
    assert!(
        output.stdout == expected,
        "expected {:?}, printed {:?}",
        String::from_utf8_lossy(&expected),
        String::from_utf8_lossy(&output.stdout)
    );
    assert!(output.stderr.is_empty());
}

/// Every shipped input has its output beside it, by the program, the library and the calculation.
#[test]
fn examples() {
    let mut count = 0;
    for entry in read_dir(root().join("examples")).unwrap() {
        let path = entry.unwrap().path();
        if path.extension().is_some_and(|ending| ending == "input") {
            let (input, output) = (read(&path).unwrap(), path.with_extension("output"));
            let output = read(&output).unwrap_or_else(|_| panic!("no {}", output.display()));
            same_text(&input, 1 << 16);
            assert!(closing(&input) == output, "{}", path.display());
            assert!(pardesul::respond(&input) == output, "{}", path.display());
            count += 1;
        }
    }
    assert!(count >= 3);
}

/// All six pairs of method and basis, and each refusal that the program can print, occur among
/// the generated inputs.
#[test]
fn generated_inputs() {
    let mut accepted = BTreeSet::new();
    let mut refused = BTreeSet::new();
    for seed in 0..2_000 {
        let input = closing_input(seed);
        same_text(&input, 1 << 16);
        let text = String::from_utf8(closing(&input)).unwrap();
        match text.strip_prefix("refused ") {
            Some(number) => refused.insert(number.trim().parse::<u64>().unwrap()),
            None => {
                let line = input.split(|&byte| byte == b'\n').next().unwrap();
                let line = String::from_utf8(line.to_vec()).unwrap();
                let fields: Vec<u64> = line
                    .split(' ')
                    .map(|field| field.parse().unwrap())
                    .collect();
                accepted.insert((fields[1], fields[2]))
            }
        };
    }
    assert_eq!(accepted.len(), 6, "{accepted:?}");
    let numbers: Vec<u64> = (1..=6).chain(9..=14).collect();
    assert_eq!(refused.into_iter().collect::<Vec<_>>(), numbers);
}

#[test]
fn pieces() {
    for seed in 0..20 {
        same_text(&closing_input(seed), 1);
        same_text(&closing_input(seed), 17);
    }
}

/// The longest legal input, a first line of 15 bytes and a set of 20 years with incurred, is
/// answered in full; a byte more is refused, however it arrives.
#[test]
fn longest_input() {
    let mut random = Random::new(20);
    let mut accepted = 0;
    while accepted < 3 {
        let set = any_set(&mut random);
        if set.m != 20 || !set.has_incurred {
            continue;
        }
        let input = [b"0020 0002 0001\n", &file(&set)[..]].concat();
        assert_eq!(input.len(), 10_095);
        let text = closing(&input);
        if text.starts_with(b"refused") {
            continue;
        }
        accepted += 1;
        for piece in [1, 4_096, 1 << 16] {
            same_text(&input, piece);
        }
        for byte in [0, b'\n', 255] {
            let longer = [&input[..], &[byte]].concat();
            assert_eq!(run_in_pieces(&longer, 1 << 16).stdout, b"refused 2\n");
            same_text(&longer, 4_096);
        }
    }
}

/// More bytes than the program holds: the answer is that of the whole input.
#[test]
fn long_inputs() {
    let example = read(root().join("examples/source_002.input")).unwrap();
    for length in [10_095, 10_096, 10_097, 100_000, 1_000_000] {
        let mut input = example.clone();
        input.resize(length, 0);
        same_text(&input, 4096);
    }
    same_text(&vec![b'7'; 1_000_000], 4096);
}

#[test]
fn a_read_that_fails() {
    let output = program()
        .stdin(File::open(root()).unwrap())
        .output()
        .unwrap();
    assert!(output.stdout.is_empty());
    assert!(output.stderr.starts_with(b"closing: "));
}
