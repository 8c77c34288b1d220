//! Links the proved code's archives, and says how to build one that is missing.

use std::env;
use std::path::{Path, PathBuf};
use std::process::exit;

/// The crates that have C calls; each has an archive of its own.
const CRATES: [&str; 2] = ["debugger", "decoder"];

fn main() {
    println!("cargo:rerun-if-env-changed=TS201_LIB_DIR");
    println!("cargo:rerun-if-changed=build.rs");
    let dir = library_dir();
    println!("cargo:rustc-link-search=native={}", dir.display());
    for name in CRATES {
        link(&dir, name);
    }
}

fn link(dir: &Path, name: &str) {
    let archive = dir.join(format!("lib{name}.a"));
    println!("cargo:rerun-if-changed={}", archive.display());
    if !archive.is_file() {
        eprintln!(
            "{} is missing: run `tools/library.sh {name}` at the repository's root, \
             or set TS201_LIB_DIR to the folder that holds the archives",
            archive.display()
        );
        exit(1);
    }
    println!("cargo:rustc-link-lib=static={name}");
}

fn library_dir() -> PathBuf {
    if let Some(dir) = env::var_os("TS201_LIB_DIR") {
        return PathBuf::from(dir);
    }
    let project = env::var_os("CARGO_MANIFEST_DIR").expect("cargo sets CARGO_MANIFEST_DIR");
    Path::new(&project).join("../target/staticlib")
}
