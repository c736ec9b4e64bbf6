//! Links libentries.a, from the folder `$ENTRIES_LIB`, counted from the project's
//! root, else `crates/entries/out` there.
use std::{env, path::PathBuf};

const DEFAULT: &str = "crates/entries/out";

fn main() {
    println!("cargo::rerun-if-env-changed=ENTRIES_LIB");
    println!("cargo::rerun-if-changed=build.rs");
    let here = PathBuf::from(env::var_os("CARGO_MANIFEST_DIR").unwrap());
    let named = env::var_os("ENTRIES_LIB").filter(|s| !s.is_empty());
    let folder = here.join("..").join(named.unwrap_or(DEFAULT.into()));
    let archive = folder.join("libentries.a");
    println!("cargo::rerun-if-changed={}", archive.display());
    if !archive.is_file() {
        println!(
            "cargo::error=no {}: make it by `rt lib` in crates/entries, or set ENTRIES_LIB",
            archive.display()
        );
        return;
    }
    println!("cargo::rustc-link-search=native={}", folder.display());
    println!("cargo::rustc-link-lib=static=entries");
    println!("cargo::rustc-env=ENTRIES_FOLDER={}", folder.display());
}
