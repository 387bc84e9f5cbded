//! Links the proved archive. PIVATSOHY_ARCHIVE names it; otherwise it is the one that `tools/archive api` writes.
use std::{env, path::Path, process::exit};

fn main() {
    println!("cargo:rerun-if-env-changed=PIVATSOHY_ARCHIVE");
    let here = env::var("CARGO_MANIFEST_DIR").unwrap_or_default();
    let archive = env::var("PIVATSOHY_ARCHIVE").unwrap_or("../target/staticlib/libapi.a".into());
    let archive = Path::new(&here).join(archive);
    println!("cargo:rerun-if-changed={}", archive.display());
    let (Some(folder), Some(name)) = (archive.parent(), archive.file_name()) else { exit(1) };
    if !archive.is_file() {
        println!("cargo:error={} is not there: `tools/archive api` writes it", archive.display());
        exit(1);
    }
    println!("cargo:rustc-link-search=native={}", folder.display());
    println!("cargo:rustc-link-lib=static:+verbatim={}", name.to_string_lossy());
}
