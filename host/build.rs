//! Links the library of proved functions.

use std::env;
use std::path::{Path, PathBuf};

const FOLDER: &str = "WIGTALOM_LIB_DIR";

/// How the library is made.
const MADE_BY: &str = "`rt lib` in crates/host makes it";

fn main() {
    let folder = folder();
    let library = folder.join("libhost.a");
    println!("cargo::rerun-if-env-changed={FOLDER}");
    println!("cargo::rerun-if-changed={}", library.display());
    if !library.is_file() {
        println!("cargo::error={} is missing; {MADE_BY}.", library.display());
        return;
    }
    println!("cargo::rustc-link-search=native={}", folder.display());
    println!("cargo::rustc-link-lib=static=host");
}

/// The one that the environment names, else the repository's.
fn folder() -> PathBuf {
    match env::var_os(FOLDER) {
        Some(folder) => folder.into(),
        None => Path::new(env!("CARGO_MANIFEST_DIR")).join("../crates/host/out"),
    }
}
