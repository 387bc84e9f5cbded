//! The Rust's own answers. paper.rs, store.rs and data.rs are the oracle's: they lay bytes out as a store and open it.
//!
//! `vectors prepare DIR ROOT` opens DIR's MANIFEST and SEGMENTS as a store at ROOT, lets the Rust prepare the cache, and writes CACHE and
//! PLACE to DIR.
//!
//! `vectors search DIR` opens the library and the cache of DIR, and answers each line of its input: the kind of search (cached, resident
//! or exact), k, limit, query and ids (f32s and u64s in hexadecimal, `-` for none; `all` for all ids). It prints `ok` and the report with
//! the count of places, then a line for each: id, bits of the distance, row and metadata in hexadecimal; or `refused`, document 01's
//! number and the Rust's kind of error.
use std::{fs, io, path::Path};
use vecnook::generation::{QuantizedCacheOptions, ScalarKernel};

#[allow(dead_code)]
mod data;
#[allow(dead_code)]
mod paper;
#[allow(dead_code)]
mod store;
use store::{Case, Temp};

fn main() {
    let args: Vec<String> = std::env::args().skip(1).collect();
    match args[0].as_str() {
        "prepare" => prepare(Path::new(&args[1]), Path::new(&args[2])),
        "search" => search(Path::new(&args[1])),
        other => panic!("{other}"),
    }
}

fn prepare(directory: &Path, root: &Path) {
    let read = |name: &str| fs::read(directory.join(name)).unwrap();
    assert!(!root.exists());
    let snapshot = store::open(root, &read("MANIFEST"), &read("SEGMENTS")).unwrap();
    let temp = Temp::new().unwrap();
    let cache = temp.0.join("cache");
    snapshot.prepare_quantized_cache(&cache, QuantizedCacheOptions::default()).unwrap();
    fs::copy(cache.join("DATA"), directory.join("CACHE")).unwrap();
    let place = format!("{}\n{}", std::env::consts::OS, fs::canonicalize(root).unwrap().display());
    fs::write(directory.join("PLACE"), place).unwrap();
    drop(snapshot);
    fs::remove_dir_all(root).unwrap();
}

fn bytes(hex: &str) -> Vec<u8> {
    let digits = hex.trim_start_matches('-').as_bytes();
    digits.chunks_exact(2).map(|d| u8::from_str_radix(std::str::from_utf8(d).unwrap(), 16).unwrap()).collect()
}

fn search(directory: &Path) {
    let read = |name: &str| fs::read(directory.join(name)).unwrap();
    let case = Case {
        manifest: read("MANIFEST"),
        segments: read("SEGMENTS"),
        cache: read("CACHE"),
        place: read("PLACE"),
        ..Case::default()
    };
    let temp = Temp::new().unwrap();
    let root = temp.0.join("store");
    let snapshot = store::open(&root, &case.manifest, &case.segments).unwrap();
    let library = data::library(&case);
    let options = QuantizedCacheOptions::default();
    let cached =
        store::open_cache(&snapshot, &root, &temp.0.join("cache"), &library, case.place(), &case.cache, options).unwrap();
    let resident = snapshot.quantize().unwrap();
    for line in io::read_to_string(io::stdin()).unwrap().lines() {
        let words: Vec<&str> = line.split(' ').collect();
        let (k, limit) = (words[1].parse().unwrap(), words[2].parse().unwrap());
        let query = paper::floats(&bytes(words[3]));
        let ids: Option<Vec<u64>> = (words[4] != "all")
            .then(|| bytes(words[4]).chunks_exact(8).map(|b| u64::from_le_bytes(b.try_into().unwrap())).collect());
        let found = match (words[0], &ids) {
            ("cached", None) => cached.search(&query, k, limit),
            ("cached", Some(ids)) => cached.search_ids(&query, k, limit, &ScalarKernel, ids),
            ("resident", None) => resident.search(&query, k, limit),
            ("resident", Some(ids)) => resident.search_ids(&query, k, limit, &ScalarKernel, ids),
            ("exact", ids) => snapshot.search_filtered(&query, k, &ScalarKernel, |id, _| {
                ids.as_ref().is_none_or(|ids| ids.contains(&id))
            }),
            (other, _) => panic!("{other}"),
        };
        match store::report(&snapshot, found) {
            Err(e) => println!("refused {} {:?}", e.number, e.error.kind()),
            Ok(r) => {
                let (complete, approximate) = (u8::from(r.complete), u8::from(r.approximate));
                let count = r.places.len();
                println!("ok {} {} {} {} {complete} {approximate} {count}", r.generation, r.sequence, r.eligible, r.measured);
                for p in r.places {
                    let metadata: String = p.metadata.iter().map(|b| format!("{b:02x}")).collect();
                    println!("{} {:016x} {} -{metadata}", p.id, p.bits, p.row);
                }
            }
        }
    }
}
