//! Declares the three modules where they lie, so that their files are compiled as they are.

use std::{env, fs, path::PathBuf};

fn main() {
    println!("cargo:rerun-if-env-changed=VERITASM_SRC");
    let here = PathBuf::from(env::var("CARGO_MANIFEST_DIR").unwrap());
    // A relative folder is taken from the root of the repository.
    let root = here.join("../..");
    let folder = env::var("VERITASM_SRC").unwrap_or_else(|_| "../shared/docs/src".into());
    let mut modules = String::new();
    for name in ["audit", "indexed_mapper", "model"] {
        let file = root.join(&folder).join("src").join(format!("{name}.rs"));
        let file = file.canonicalize().unwrap_or_else(|e| panic!("{}: {e}; see oracle/README.md", file.display()));
        println!("cargo:rerun-if-changed={}", file.display());
        modules += &format!("#[path = {:?}]\npub mod {name};\n", file.to_str().unwrap());
    }
    let out = PathBuf::from(env::var("OUT_DIR").unwrap()).join("modules.rs");
    fs::write(out, modules).unwrap();
}
