//! Links libFuzzer, which comes with clang.
use std::path::Path;
use std::process::Command;

fn main() {
    let clang = Command::new("clang")
        .arg("--print-file-name=libclang_rt.fuzzer-x86_64.a")
        .output()
        .expect("clang is there");
    let library = String::from_utf8(clang.stdout).unwrap();
    let library = library.trim();
    assert!(
        Path::new(library).exists(),
        "clang has no libFuzzer: Debian's package is libclang-rt-14-dev"
    );
    println!("cargo:rustc-link-arg-bins={library}");
    println!("cargo:rustc-link-arg-bins=-lstdc++");
    println!("cargo:rerun-if-changed=build.rs");
}
