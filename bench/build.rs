//! Links the proved library that `tools/archive bench_exports` has written.
fn main() {
    let root = std::path::Path::new(env!("CARGO_MANIFEST_DIR")).parent().unwrap();
    println!("cargo:rustc-link-search=native={}", root.join("target/staticlib").display());
    println!("cargo:rustc-link-lib=static=bench_exports");
    println!("cargo:rerun-if-changed={}", root.join("target/staticlib/libbench_exports.a").display());
}
