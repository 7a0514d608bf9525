//! Links the static libraries that `rt lib` writes into the folders of their
//! crates; the environment's KEEPER_LIB names one folder that has them all.

use std::path::PathBuf;

/// The crates that they are made of.
const CRATES: [&str; 1] = ["keeper_c"];

fn main() {
    let here = PathBuf::from(std::env::var_os("CARGO_MANIFEST_DIR").unwrap_or_default());
    println!("cargo::rerun-if-env-changed=KEEPER_LIB");
    for name in CRATES {
        let folder = match std::env::var_os("KEEPER_LIB") {
            Some(given) => PathBuf::from(given),
            None => here.join(format!("../../crates/{name}/out")),
        };
        println!("cargo::rustc-link-search=native={}", folder.display());
        let library = folder.join(format!("lib{name}.a"));
        println!("cargo::rerun-if-changed={}", library.display());
        println!("cargo::rustc-link-lib=static={name}");
        if !library.exists() {
            println!("cargo::warning=no lib{name}.a: run `rt lib` in crates/{name}");
        }
    }
}
