//! Links the static library of the calls, which `rt lib` in crates/c_api writes.
use std::{env, path::Path};

fn main() {
    let here = env::var("CARGO_MANIFEST_DIR").unwrap();
    let folder = Path::new(&here).join("../../crates/c_api/out");
    let library = folder.join("libc_api.a");
    if !library.exists() {
        println!(
            "cargo:warning={} is not there: `rt lib` in crates/c_api writes it",
            library.display()
        );
    }
    println!("cargo:rustc-link-search=native={}", folder.display());
    println!("cargo:rustc-link-lib=static=c_api");
    println!("cargo:rerun-if-changed={}", library.display());
}
