//! Links the proved libraries.

use std::{env, path::PathBuf};

fn main() {
    let here = PathBuf::from(env::var("CARGO_MANIFEST_DIR").unwrap());
    for name in ["jekaumeo_audit", "jekaumeo"] {
        let folder = here.join(format!("../../crates/{name}/out"));
        let archive = folder.join(format!("lib{name}.a"));
        assert!(archive.exists(), "{}: not there; `rt lib` in crates/{name} writes it", archive.display());
        println!("cargo:rustc-link-search=native={}", folder.display());
        println!("cargo:rerun-if-changed={}", archive.display());
        println!("cargo:rustc-link-lib=static={name}");
    }
}
