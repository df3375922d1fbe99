//! The header and the static library from C and C++: programs are compiled, linked and run.

use std::fs::{read_to_string, write};
use std::path::{Path, PathBuf};
use std::process::{Command, Output};

const STRICT: [&str; 5] = ["-std=c11", "-Wall", "-Wextra", "-Wpedantic", "-Werror"];

fn root() -> PathBuf {
    Path::new(env!("CARGO_MANIFEST_DIR")).join("../..")
}

fn source(name: &str) -> PathBuf {
    Path::new(env!("CARGO_MANIFEST_DIR"))
        .join("tests/c")
        .join(name)
}

/// Where this test may write.
fn own(name: &str) -> PathBuf {
    Path::new(env!("CARGO_TARGET_TMPDIR")).join(name)
}

/// What a compiler says, with the header in reach.
fn compile(compiler: &str, flags: &[&str], source: &Path, more: &[&Path]) -> Output {
    Command::new(compiler)
        .args(flags)
        .arg("-I")
        .arg(root().join("include"))
        .arg(source)
        .args(more)
        .output()
        .unwrap_or_else(|_| panic!("{compiler} is not there"))
}

/// A program compiled against the library ends with status 0.
#[test]
fn examples() {
    let program = own("examples");
    let library = root().join("crates/c_api/out/libc_api.a");
    let more = [&library, Path::new("-o"), &program];
    let compiled = compile("cc", &STRICT, &source("examples.c"), &more);
    let said = String::from_utf8_lossy(&compiled.stderr);
    assert!(compiled.status.success(), "{said}");
    let run = Command::new(&program).output().expect("the program runs");
    let printed = String::from_utf8_lossy(&run.stdout);
    assert!(run.status.success(), "{printed}");
}

/// Every function that the header declares is called by the programs in C, here and where the stack
/// is measured.
#[test]
fn every_function_is_called() {
    let header = read_to_string(root().join("include/pardesul.h")).unwrap();
    let functions: Vec<&str> = header
        .lines()
        .filter(|line| !line.starts_with([' ', '/', '#']))
        .filter_map(|line| line.split_once('(')?.0.split(' ').next_back())
        .collect();
    assert_eq!(functions.len(), 14, "{functions:?}");
    for program in [source("examples.c"), root().join("rust/records/stack.c")] {
        let text = read_to_string(program).unwrap();
        for function in &functions {
            assert!(text.contains(&format!("{function}(")), "{function}");
        }
    }
}

#[test]
fn header_from_cpp() {
    let flags = ["-std=c++11", "-Wall", "-Wextra", "-Wpedantic", "-Werror"];
    let flags = [&flags[..], &["-fsyntax-only", "-x", "c++"]].concat();
    let checked = compile("c++", &flags, &root().join("include/pardesul.h"), &[]);
    let said = String::from_utf8_lossy(&checked.stderr);
    assert!(checked.status.success(), "{said}");
}

/// The structs have the same layout in both languages.
#[test]
fn layout_of_structs() {
    for (compiler, language) in [
        ("cc", &["-std=c11"][..]),
        ("c++", &["-std=c++11", "-x", "c++"]),
    ] {
        let flags = [&STRICT[1..], &["-fsyntax-only"], language].concat();
        let checked = compile(compiler, &flags, &source("layout.c"), &[]);
        let said = String::from_utf8_lossy(&checked.stderr);
        assert!(checked.status.success(), "{said}");
    }
}

/// An array of the right length is taken without a word, one that is a place short is warned of.
#[test]
fn short_arrays_are_warned_of() {
    let said = |places: u64| {
        let program = own(&format!("places_{places}.c"));
        let text = format!(
            "#include \"pardesul.h\"\n\
             uint64_t call(const uint8_t *file, uint64_t *line);\n\
             uint64_t call(const uint8_t *file, uint64_t *line) {{\n\
             int64_t p[{places}]; return pardesul_delays(file, 0, 2, line, p); }}\n"
        );
        write(&program, text).unwrap();
        let more = [Path::new("-c"), Path::new("-o"), Path::new("/dev/null")];
        let compiled = compile("cc", &STRICT, &program, &more);
        String::from_utf8(compiled.stderr).unwrap()
    };
    assert_eq!(said(20), "");
    assert!(said(19).contains("pardesul_delays"), "{}", said(19));
}
