//! Copies the published files from the folder VECNOOK (default: ../shared/docs from the repository's root; files named
//! src--src--*.rs.txt) into cargo's own output directory. Nothing of them is altered; of collection.rs only the text of
//! `EmbeddingSpace` is kept.
use std::{env, fs, path::PathBuf};

const FILES: [&str; 11] = [
    "config.rs",
    "error.rs",
    "index.rs",
    "math.rs",
    "storage.rs",
    "storage_io.rs",
    "stream.rs",
    "generation.rs",
    "generation/format.rs",
    "generation/quantization.rs",
    "generation/quantized_cache.rs",
];
const MODULES: [&str; 7] = ["config", "error", "generation", "math", "storage", "storage_io", "stream"];

fn main() {
    let root = PathBuf::from(env::var("CARGO_MANIFEST_DIR").unwrap()).join("../..");
    let folder = root.join(env::var("VECNOOK").unwrap_or("../shared/docs".into()));
    let out = PathBuf::from(env::var("OUT_DIR").unwrap());
    println!("cargo::rerun-if-env-changed=VECNOOK");
    let text = |name: &str| {
        let file = folder.join(format!("src--src--{}.txt", name.replace('/', "--")));
        println!("cargo::rerun-if-changed={}", file.display());
        fs::read_to_string(&file).unwrap_or_else(|e| panic!("{}: {e}; set VECNOOK", file.display()))
    };
    fs::create_dir_all(out.join("generation")).unwrap();
    for name in FILES {
        fs::write(out.join(name), text(name)).unwrap();
    }
    let collection = text("collection.rs");
    let from = collection.find("/// Identity of a compatible embedding space.").unwrap();
    let to = collection.find("/// Indexed source equality").unwrap();
    fs::write(out.join("embedding_space.rs"), &collection[from..to]).unwrap();
    // index.rs is included in lib.rs, where what it needs stands in
    let modules: String = MODULES.iter().map(|m| format!("pub mod {m};\n")).collect();
    fs::write(out.join("modules.rs"), modules).unwrap();
}
