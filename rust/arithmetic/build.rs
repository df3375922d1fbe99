//! Links the static library of the probes, which `rt lib` in crates/probes writes.
use std::{env, path::Path};

fn main() {
    let here = env::var("CARGO_MANIFEST_DIR").unwrap();
    let folder = Path::new(&here).join("../../crates/probes/out");
    println!("cargo:rustc-link-search=native={}", folder.display());
    println!("cargo:rustc-link-lib=static=probes");
    println!(
        "cargo:rerun-if-changed={}",
        folder.join("libprobes.a").display()
    );
}
