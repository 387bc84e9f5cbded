//! Links the archive that `tools/archive api` has written, or the one that the variable ARCHIVE names.
use std::{env, path::Path};

fn main() {
    let root = Path::new(env!("CARGO_MANIFEST_DIR")).join("../..");
    let archive = root.join(env::var("ARCHIVE").unwrap_or("target/staticlib/libapi.a".into()));
    let archive = archive.canonicalize().unwrap_or_else(|e| panic!("{}: {e}; run `tools/archive api`", archive.display()));
    println!("cargo::rerun-if-env-changed=ARCHIVE");
    println!("cargo::rerun-if-changed={}", archive.display());
    println!("cargo::rustc-link-search=native={}", archive.parent().unwrap().display());
    println!("cargo::rustc-link-lib=static={}", archive.file_stem().unwrap().to_str().unwrap().strip_prefix("lib").unwrap());
}
