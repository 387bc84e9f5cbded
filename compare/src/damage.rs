//! Damaged copies of a library: the Rust and the archive refuse them by the same kind, or answer alike. Checksums are mended more often
//! than not, so that the tests behind them are reached.
use crate::{
    library::{Rng, Written, seal, u32_at, u64_at},
    ours::{Cached, Check, Ours, Resident, Short, holds, same},
    store::{self, Stage, Store},
    whole::{self, Library, PLATFORM, Theirs},
};
use archive::{Place, Rows, Search};
use std::{fs, os::unix::ffi::OsStrExt, path::Path};
use vecnook::generation::{QuantizedCacheOptions, Snapshot};

pub fn all(ours: &mut Ours, library: &Library, temp: &Path) -> Check {
    for _ in 0..6 {
        let mut written = library.written.clone();
        for _ in 0..1 + ours.rng.below(2) {
            manifest(ours.rng, &mut written.manifest);
        }
        if ours.rng.below(4) != 0 {
            seal(&mut written.manifest);
        }
        checked(ours, library, &written, temp)?;
    }
    for _ in 0..4 {
        let mut written = library.written.clone();
        segments(ours.rng, &mut written);
        checked(ours, library, &written, temp)?;
    }
    for _ in 0..6 {
        let mut bytes = library.cache.clone();
        cache(ours.rng, &mut bytes, library.plan.dimensions, library.ids.len());
        opened(ours, library, &bytes, temp)?;
    }
    for _ in 0..3 {
        sized(ours, library, temp)?;
    }
    if ours.rng.once_in(8) {
        elsewhere(ours, library, temp)?;
    }
    Ok(())
}

/// One bit, one byte or the length.
fn any(rng: &mut Rng, bytes: &mut Vec<u8>) {
    if bytes.is_empty() {
        bytes.push(rng.next() as u8);
        return;
    }
    let at = rng.below(bytes.len());
    match rng.below(8) {
        0 => bytes.truncate(at),
        1 => bytes.extend((0..1 + rng.below(24)).map(|_| rng.next() as u8)),
        2 | 3 => bytes[at] = rng.next() as u8,
        4 => {
            let to = rng.below(bytes.len());
            bytes.swap(at, to);
        }
        _ => bytes[at] ^= 1 << rng.below(8),
    }
}
fn put(bytes: &mut [u8], at: usize, value: &[u8]) {
    if let Some(part) = bytes.get_mut(at..at + value.len()) {
        part.copy_from_slice(value);
    }
}
/// A number at one of the bounds, or next to what stands there.
fn edge(rng: &mut Rng, old: u32) -> u32 {
    let bounds = [0u32, 1, 2, 64, 512, 1024, 4096, 16_384, 1_000_000, 67_108_864, u32::MAX];
    let near = rng.pick(&bounds).wrapping_add(rng.pick(&[0, 1]));
    rng.pick(&[near, old.wrapping_add(1), old.wrapping_sub(1), old ^ 4, old.wrapping_add(65_536)])
}
/// Swaps two parts of one width, counted from `first`.
fn swap(rng: &mut Rng, bytes: &mut [u8], first: usize, width: usize, count: usize) {
    if count > 1 && first + width * count <= bytes.len() {
        let (a, b) = (first + width * rng.below(count), first + width * rng.below(count));
        for n in 0..width {
            bytes.swap(a + n, b + n);
        }
    }
}

fn manifest(rng: &mut Rng, bytes: &mut Vec<u8>) {
    let layout = Written { manifest: bytes.clone(), segments: Vec::new() }.layout();
    let model = u32_at(bytes, 45) as usize;
    let field = |rng: &mut Rng, bytes: &mut [u8], at: usize| {
        let value = edge(rng, u32_at(bytes, at)).to_le_bytes();
        put(bytes, at, &value[..if at == 44 { 1 } else { 4 }]);
    };
    match rng.below(16) {
        0..=2 => any(rng, bytes),
        3..=6 => {
            let at = rng.pick(&[0, 8, 12, 16, 24, 28, 32, 36, 44, 45, 49 + model, 53 + model, 57 + model]);
            field(rng, bytes, at);
        }
        // generation 0, and a model that is no model
        7 => put(bytes, 8, &[0; 8]),
        8 => {
            let at = 49 + rng.below(model.clamp(1, 512));
            put(bytes, at, &[rng.pick(&[0, 0x80, 0xc0, 0xed, 0xff])]);
        }
        9 | 10 if layout.segments > 0 => {
            let at = layout.table + 12 * rng.below(layout.segments.min(2000)) + rng.pick(&[0, 4, 8]);
            field(rng, bytes, at);
        }
        11 => swap(rng, bytes, layout.table, 12, layout.segments.min(2000)),
        12 => swap(rng, bytes, layout.entries, 20, layout.rows.min(2000)),
        // id, segment, offset or metadata length of a row; two fields of one
        _ if layout.rows > 0 => {
            let at = layout.entries + 20 * rng.below(layout.rows.min(2000));
            if rng.once_in(4) {
                swap(rng, bytes, at, 4, 5);
            } else {
                let at = at + rng.pick(&[0, 4, 8, 12, 16]);
                field(rng, bytes, at);
            }
        }
        _ => any(rng, bytes),
    }
}

fn segments(rng: &mut Rng, written: &mut Written) {
    let layout = written.layout();
    let dimensions = u32_at(&written.manifest, 24) as usize;
    let kind = rng.below(8);
    if layout.rows == 0 || kind < 2 {
        any(rng, &mut written.segments);
    } else {
        let row = rng.below(layout.rows);
        let at = written.record(row);
        let length = u32_at(&written.manifest, layout.entries + 20 * row + 16) as usize;
        match kind {
            2 | 3 => {
                let value = rng.pick(&[f32::NAN, f32::INFINITY, f32::NEG_INFINITY, -0.0, 0.0, f32::MAX, f32::from_bits(1)]);
                let coordinates = if rng.once_in(3) { 0..dimensions } else { 0..1 + rng.below(dimensions) };
                for n in coordinates {
                    put(&mut written.segments, at + 12 + 4 * n, &value.to_le_bytes());
                }
            }
            4 | 5 if length > 0 => {
                let at = at + 12 + 4 * dimensions + rng.below(length);
                put(&mut written.segments, at, &[rng.pick(&[0x80, 0xbf, 0xc0, 0xc2, 0xe0, 0xed, 0xf0, 0xf4, 0xf5, 0xff, b'a'])]);
            }
            6 => {
                let at = at + rng.pick(&[0, 4, 8]);
                let value = edge(rng, u32_at(&written.segments, at)).to_le_bytes();
                put(&mut written.segments, at, &value);
            }
            _ => {
                // a segment's CRC-32
                let (start, length) = written.parts()[rng.below(layout.segments)];
                let value = (rng.next() as u32).to_le_bytes();
                put(&mut written.segments, start + length - 4, &value);
                return;
            }
        }
    }
    if rng.below(4) != 0 {
        written.mend();
    }
}

fn cache(rng: &mut Rng, bytes: &mut Vec<u8>, dimensions: usize, rows: usize) {
    let width = dimensions + 16;
    let first = bytes.len() - 4 - rows * width;
    match rng.below(12) {
        0..=2 => any(rng, bytes),
        3 => {
            let at = rng.below(first);
            bytes[at] ^= 1 << rng.below(8);
        }
        4 => {
            let at = rng.pick(&[0, 4, 8, 12]);
            let value = edge(rng, u32_at(bytes, at)).to_le_bytes();
            put(bytes, at, &value);
        }
        5 => swap(rng, bytes, first, width, rows),
        _ if rows == 0 => any(rng, bytes),
        kind => {
            let at = first + rng.below(rows) * width;
            let scales = [1e200, 1e308, f64::MAX, 5e-324, 1e-200, f64::INFINITY, f64::NEG_INFINITY, f64::NAN, 0.0, -0.0, -1.0, 3.5];
            match kind {
                6 | 7 => put(bytes, at, &rng.pick(&scales).to_le_bytes()),
                8 => put(bytes, at + 8, &rng.pick(&[0i64, -1, 1, i64::MAX, i64::MIN]).to_le_bytes()),
                9 => put(bytes, at + 16 + rng.below(dimensions), &[rng.pick(&[128, 129, 0, 127])]),
                // a whole row of another code, with its norm or nearly
                _ => {
                    let code = rng.pick(&[-128i8, -127, 0, 1, 127]);
                    let norm = dimensions as i64 * i64::from(code).pow(2) + rng.pick(&[0, 0, 0, 1]);
                    put(bytes, at, &rng.pick(&[1.0, 1e200, 1e154, 1e-320, f64::MAX]).to_le_bytes());
                    put(bytes, at + 8, &norm.to_le_bytes());
                    bytes[at + 16..at + width].fill(code as u8);
                }
            }
        }
    }
    if rng.below(4) != 0 {
        seal(bytes);
    }
}

/// Manifest check and library check of these bytes; where they are accepted, the cache too.
fn checked(ours: &mut Ours, library: &Library, written: &Written, temp: &Path) -> Check {
    let crc = written.stored_crc();
    let expected = if ours.rng.once_in(16) { crc ^ (1 << ours.rng.below(32)) } else { crc };
    let store = Store::lay(temp.join("damaged"), written, expected);
    let theirs = store.manifest();
    let rows = library.ids.len().max(Some(written.layout().rows).filter(|&rows| rows < 10_000).unwrap_or(0));
    let lent = ours.lend(written, expected, rows);
    let (refusal, _) = ours.manifest_check(&lent, false)?;
    whole::judged(refusal, Stage::Manifest, theirs.as_ref())?;
    ours.tally.answer("manifest check", refusal.0);
    let (of_library, _) = ours.library_check(&lent, false)?;
    if theirs.is_some() {
        same("the library check's manifest", &of_library, &refusal)?;
        ours.tally.answer("library check", refusal.0);
        return Ok(());
    }
    let total: usize = written.parts().iter().map(|part| part.1).sum();
    let snapshot = store.open(written);
    if total != written.segments.len() {
        // document 01 tests the whole length first, the Rust each file's at its turn; bytes without segments it has none
        same("a wrong length of the segments", &of_library, &(5, 0))?;
        if written.layout().segments == 0 {
            ours.tally.rule("5 without segments");
        } else {
            holds("the Rust's kind", snapshot.is_err_and(|error| error.kind() == store::kind(5)))?;
            ours.tally.answer("library check", 5);
        }
        return Ok(());
    }
    whole::judged(of_library, Stage::Segments, snapshot.as_ref().err())?;
    ours.tally.answer("library check", of_library.0);
    let at = whole::place(store.bytes(), QuantizedCacheOptions::default());
    let (refusal, size) = ours.cache_size(&lent, at)?;
    same("the size of a library whose manifest is accepted", &refusal, &(0, 0))?;
    let (refusal, _, bytes) = ours.prepare(&lent, at, size as usize)?;
    match snapshot {
        Ok(snapshot) => {
            let directory = temp.join("damaged-cache");
            let _ = fs::remove_dir_all(&directory);
            snapshot.prepare_quantized_cache(&directory, QuantizedCacheOptions::default()).unwrap();
            let theirs = fs::read(directory.join("DATA")).unwrap();
            holds("the cache of a changed library", refusal == (0, 0) && *bytes == theirs)?;
            ours.tally.answer("prepare", 0);
            ours.tally.values("caches", 1);
            ours.tally.cache_bytes += theirs.len() as u64;
        }
        // a 6 is no matter to preparing
        Err(_) => {
            holds("preparing a bad library", matches!(refusal.0, 0 | 5) && (of_library.0 == 6 || refusal.0 == 5))?;
            ours.tally.rule("5 of preparing");
        }
    }
    Ok(())
}

/// Opening of these bytes as the library's cache; where it opens, searches over it.
fn opened(ours: &mut Ours, library: &Library, bytes: &[u8], temp: &Path) -> Check {
    let directory = temp.join("damaged-cache");
    let _ = fs::remove_dir_all(&directory);
    store::lay_cache(&directory, bytes);
    let theirs = library.snapshot.quantize_cached(&directory, library.options);
    let lent = ours.lend(&library.written, library.written.stored_crc(), library.ids.len());
    let (refusal, cached) = ours.open(&lent, library.place(), bytes, false)?;
    whole::judged(refusal, Stage::Cache, theirs.as_ref().err())?;
    ours.tally.answer("open", refusal.0);
    let Ok(theirs) = theirs else { return Ok(()) };
    let theirs = Theirs::Cached(theirs);
    for _ in 0..2 {
        let question = whole::question(ours.rng, library);
        whole::searched(ours, library, &lent, cached.rows(), &theirs, &question)?;
    }
    Ok(())
}

/// Sizing, preparing and opening with a cache limit and a block at their bounds.
fn sized(ours: &mut Ours, library: &Library, temp: &Path) -> Check {
    let (size, row) = (library.cache.len(), library.plan.dimensions + 16);
    let most = ours.rng.pick(&[0, 1, size - 1, size, size + 7, size + 8, size + 9, 1 << 30, (1 << 30) + 1, usize::MAX]);
    let block = ours.rng.pick(&[0, row - 1, row, row + 1, 1 << 20, 16 << 20, (16 << 20) + 1, usize::MAX]);
    let options = QuantizedCacheOptions::default().with_max_cache_bytes(most).with_buffer_bytes(block);
    let directory = temp.join("sized-cache");
    let _ = fs::remove_dir_all(&directory);
    let prepared = library.snapshot.prepare_quantized_cache(&directory, options);
    let opened = library.snapshot.quantize_cached(temp.join("cache"), options);
    let lent = ours.lend(&library.written, library.written.stored_crc(), library.ids.len());
    let at = whole::place(library.store.bytes(), options);
    let refusals = [ours.cache_size(&lent, at)?.0, ours.prepare(&lent, at, size)?.0, ours.open(&lent, at, &library.cache, false)?.0];
    for (refusal, (entry, theirs)) in refusals.into_iter().zip([
        ("cache size", prepared.as_ref().err()),
        ("prepare", prepared.as_ref().err()),
        ("open", opened.as_ref().err()),
    ]) {
        whole::judged(refusal, Stage::Cache, theirs)?;
        ours.tally.answer(entry, refusal.0);
    }
    if ours.rng.once_in(16) {
        let long = vec![b'x'; 1_048_577];
        let refused = [Place { platform: &long[..65], ..at }, Place { root: &long, ..at }]
            .map(|at| ours.cache_size(&lent, at).map(|answer| answer.0));
        same("a long platform or root", &refused, &[Ok((10, 0)), Ok((10, 0))])?;
        ours.tally.rule("10");
    }
    Ok(())
}

/// The store renamed: its cache is another store's.
fn elsewhere(ours: &mut Ours, library: &Library, temp: &Path) -> Check {
    let other = temp.join(ours.rng.pick(&["t", "srote", "erots", "moved"]));
    fs::rename(&library.store.root, &other).unwrap();
    let snapshot = Snapshot::open(&other).unwrap();
    let theirs = snapshot.quantize_cached(temp.join("cache"), library.options);
    let lent = ours.lend(&library.written, library.written.stored_crc(), library.ids.len());
    let at = whole::place(other.as_os_str().as_bytes(), library.options);
    let (refusal, _) = ours.open(&lent, at, &library.cache, false)?;
    whole::judged(refusal, Stage::Cache, theirs.as_ref().err())?;
    ours.tally.answer("open", refusal.0);
    // another platform of the same length: the Rust knows the machine's alone
    let platform = PLATFORM.to_uppercase();
    let at = Place { platform: platform.as_bytes(), ..library.place() };
    same("another platform", &ours.open(&lent, at, &library.cache, false)?.0, &(13, 0))?;
    ours.tally.rule("13 of a platform");
    fs::rename(&other, &library.store.root).unwrap();
    Ok(())
}

/// Searches of bytes that changed after opening and building, states with them. The Rust has no such calls; what is held is what
/// document 01 says of every call: its numbers, what happens to the slices, and that nothing outside of them is touched.
pub fn altered(ours: &mut Ours, library: &Library, cached: &Cached, resident: &Resident) -> Check {
    for _ in 0..6 {
        let mut written = library.written.clone();
        let mut bytes = cached.cache.to_vec();
        let mut states = [cached.state.to_vec(), resident.state.to_vec()];
        let mut rows = (resident.codes.to_vec(), resident.scales.to_vec(), resident.norms.to_vec());
        for _ in 0..1 + ours.rng.below(2) {
            match ours.rng.below(8) {
                0 | 1 => manifest(ours.rng, &mut written.manifest),
                2 | 3 => {
                    let manifest = written.manifest;
                    written.manifest = library.written.manifest.clone();
                    segments(ours.rng, &mut written);
                    written.manifest = manifest;
                }
                4 if bytes.len() == library.cache.len() => cache(ours.rng, &mut bytes, library.plan.dimensions, library.ids.len()),
                5 => {
                    let which = ours.rng.below(2);
                    let at = ours.rng.below(states[which].len());
                    states[which][at] = ours.rng.next() as u8;
                }
                _ => match ours.rng.below(6) {
                    0 => rows.0.truncate(ours.rng.below(rows.0.len() + 1)),
                    1 => rows.1.truncate(ours.rng.below(rows.1.len() + 1)),
                    2 => rows.2.push(7),
                    3 if !rows.0.is_empty() => {
                        let at = ours.rng.below(rows.0.len());
                        rows.0[at] = ours.rng.next() as i8;
                    }
                    4 if !rows.1.is_empty() => {
                        let at = ours.rng.below(rows.1.len());
                        rows.1[at] = f64::from_bits(ours.rng.next());
                    }
                    _ if !rows.2.is_empty() => {
                        let at = ours.rng.below(rows.2.len());
                        rows.2[at] = ours.rng.next() as i64 >> ours.rng.below(64);
                    }
                    _ => rows.2.push(0),
                },
            }
        }
        let question = whole::question(ours.rng, library);
        let lent = ours.lend(&written, 0, 0);
        let [state, resident_state] = states.map(|state| ours.lend_slice(&state));
        let bytes = ours.lend_slice(&bytes);
        let (codes, scales, norms) = (ours.lend_slice(&rows.0), ours.lend_slice(&rows.1), ours.lend_slice(&rows.2));
        for rows in [
            Rows::Cached { state: &state, cache: &bytes },
            Rows::Resident { state: &resident_state, codes: &codes, scales: &scales, norms: &norms },
        ] {
            let search = Search {
                manifest: &lent.manifest,
                segments: &lent.segments,
                rows,
                wanted: question.wanted.as_deref(),
                query: &question.query,
                k: question.k,
                limit: question.limit,
            };
            // the manifest may name more rows than the library has
            let count = written.layout().rows.min(2 * library.ids.len());
            let agreement = ours.rng.once_in(2);
            let found = ours.search(search, count, agreement, Short::None)?;
            let (number, place) = found.refusal;
            holds("a number of a search", matches!(number, 0 | 16..=18 | 20..=24))?;
            holds("a place among the rows", place == 0 || place < u64_at(&written.manifest, written.layout().table - 8))?;
            ours.tally.rule("searches of altered bytes");
        }
    }
    Ok(())
}
