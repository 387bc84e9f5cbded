//! The archive's functions under safe wrappers; all unsafe code of the program is here.
//!
//! Every buffer is a slice of its own type, so that it is aligned and its count is its own; what a call writes is lent by `&mut`, so that
//! it overlaps nothing else, and all of it is memory that no one else changes. Slices that depend on the library are made here, of
//! the lengths that its accepted head wants. What comes back is tested before it is taken as a length or as a place in a buffer.
#![allow(unsafe_code)]
use crate::{
    bounds::{
        DEFAULT_BUFFER_BYTES, DEFAULT_MAX_CACHE_BYTES, ENTRY_BYTES, MAX_CODE_BYTES, MAX_IDS, MAX_K, MAX_LIMIT,
        MAX_MODEL_BYTES,
    },
    error::{Error, Refusal},
    files::zeros,
};
use std::ops::Range;

#[repr(C)]
struct HeadBytes {
    bytes: [u8; 600],
}
#[repr(C)]
struct CacheState {
    bytes: [u8; 608],
}
#[repr(C)]
struct ResidentState {
    bytes: [u8; 624],
}
/// What preparing made.
#[repr(C)]
#[derive(Default)]
pub struct Info {
    pub generation: u64,
    pub sequence: u64,
    pub cache_bytes: u64,
    pub code_bytes: u64,
    pub parameter_bytes: u64,
}
/// What a search did.
#[repr(C)]
#[derive(Default)]
pub struct Report {
    pub generation: u64,
    pub sequence: u64,
    pub eligible: u64,
    pub measured: u64,
    pub complete: u64,
    pub approximate: u64,
    pub count: u64,
}

/// Declares functions of the header, and for a test their types.
macro_rules! declare {
    ($list:ident: $($name:ident($($argument:tt: $kind:ty),*);)*) => {
        unsafe extern "C" {
            $(fn $name($($argument: $kind),*) -> u32;)*
        }
        #[cfg(test)]
        const $list: &[(&str, &[&str])] = &[$((stringify!($name), &[$(stringify!($kind)),*])),*];
    };
}
/// Declares searches and agreement counts, which differ in state, rows, ids and what they give.
macro_rules! declare_searches {
    ($($name:ident: $state:ty, [$($rows:ty),*], [$($ids:ty),*], $out:ty;)*) => {
        declare! { SEARCHES: $($name(
            state: *const $state, manifest: *const u8, _: usize, segments: *const u8, _: usize,
            $(_: *const $rows, _: usize,)* $(_: $ids, _: usize,)*
            query: *const f32, _: usize, k: usize, limit: usize, keys: *mut u64, _: usize, candidates: *mut u64, _: usize,
            ids: *mut u64, _: usize, distances: *mut f64, _: usize, rows: *mut u64, _: usize, starts: *mut u64, _: usize,
            lengths: *mut u32, _: usize, out: *mut $out, place: *mut u64
        );)* }
    };
}

declare! { CHECKS:
    pv_manifest_check(manifest: *const u8, _: usize, expected_crc: u32, scratch: *mut u64, _: usize,
        head: *mut HeadBytes, place: *mut u64);
    pv_library_check(manifest: *const u8, _: usize, expected_crc: u32, scratch: *mut u64, _: usize,
        segments: *const u8, _: usize, head: *mut HeadBytes, place: *mut u64);
    pv_cache_size(manifest: *const u8, _: usize, expected_crc: u32, scratch: *mut u64, _: usize,
        platform: *const u8, _: usize, root: *const u8, _: usize, max_cache_bytes: usize, buffer_bytes: usize,
        size: *mut u64, place: *mut u64);
    pv_cache_prepare(manifest: *const u8, _: usize, expected_crc: u32, scratch: *mut u64, _: usize,
        segments: *const u8, _: usize, platform: *const u8, _: usize, root: *const u8, _: usize,
        max_cache_bytes: usize, buffer_bytes: usize, cache: *mut u8, _: usize, info: *mut Info, place: *mut u64);
    pv_cache_open(manifest: *const u8, _: usize, expected_crc: u32, scratch: *mut u64, _: usize,
        cache: *const u8, _: usize, platform: *const u8, _: usize, root: *const u8, _: usize,
        max_cache_bytes: usize, buffer_bytes: usize, state: *mut CacheState, place: *mut u64);
    pv_resident_build(manifest: *const u8, _: usize, expected_crc: u32, scratch: *mut u64, _: usize,
        segments: *const u8, _: usize, codes: *mut i8, _: usize, scales: *mut f64, _: usize, norms: *mut i64, _: usize,
        state: *mut ResidentState, place: *mut u64);
}
declare_searches! {
    pv_search_cached: CacheState, [u8], [], Report;
    pv_search_cached_ids: CacheState, [u8], [*const u64, *mut u64], Report;
    pv_search_resident: ResidentState, [i8, f64, i64], [], Report;
    pv_search_resident_ids: ResidentState, [i8, f64, i64], [*const u64, *mut u64], Report;
    pv_agreement_cached: CacheState, [u8], [], u64;
    pv_agreement_cached_ids: CacheState, [u8], [*const u64, *mut u64], u64;
    pv_agreement_resident: ResidentState, [i8, f64, i64], [], u64;
    pv_agreement_resident_ids: ResidentState, [i8, f64, i64], [*const u64, *mut u64], u64;
}

/// What a call answered: nothing to tell, or its refusal.
fn answered(number: u32, place: u64) -> Result<(), Error> {
    if number == 0 { Ok(()) } else { Err(Error::Refused(Refusal { number, place }, String::new())) }
}

fn count(number: u64, what: &str) -> Result<usize, Error> {
    usize::try_from(number).map_err(|_| Error::broken(what))
}

/// A manifest and the CRC-32 that is expected of it.
#[derive(Clone, Copy)]
pub struct Manifest<'a> {
    pub bytes: &'a [u8],
    pub expected_crc: u32,
}
/// What a cache is made for.
pub struct Place {
    pub platform: Vec<u8>,
    pub root: Vec<u8>,
}

/// Working memory of the calls that test a manifest, long enough for each row that one of its length can have.
pub struct Scratch(Vec<u64>);
impl Scratch {
    pub fn new(manifest: &[u8]) -> Result<Self, Error> {
        zeros(manifest.len() / ENTRY_BYTES).map(Self)
    }
    /// Gives the memory back; nothing is tested with it any more.
    pub fn release(&mut self) {
        self.0 = Vec::new();
    }
    fn lent(&mut self, manifest: Manifest) -> Result<&mut [u64], Error> {
        if self.0.len() < manifest.bytes.len() / ENTRY_BYTES {
            return Err(Error::broken("the scratch"));
        }
        Ok(&mut self.0)
    }
}

/// What was accepted of a manifest.
#[derive(Debug)]
pub struct Head {
    pub generation: u64,
    pub sequence: u64,
    pub dimensions: usize,
    pub metric: u64,
    pub segments: usize,
    pub rows: usize,
    pub model: Vec<u8>,
}
impl Head {
    /// The fields of a head, at the header's places.
    fn read(head: &HeadBytes) -> Result<Self, Error> {
        let field = |at| count(number_at(&head.bytes, at), "the head");
        let model = head.bytes.get(88..88 + field(64)?.min(MAX_MODEL_BYTES)).unwrap_or_default();
        Ok(Self {
            generation: number_at(&head.bytes, 8),
            sequence: number_at(&head.bytes, 16),
            dimensions: field(24)?,
            metric: number_at(&head.bytes, 56),
            segments: field(72)?,
            rows: field(80)?,
            model: model.to_vec(),
        })
    }
}
/// The number of 8 bytes at a place, 0 past the end.
fn number_at(bytes: &[u8], at: usize) -> u64 {
    bytes.get(at..at + 8).and_then(|eight| eight.try_into().ok()).map_or(0, u64::from_le_bytes)
}

/// Calls a function that tests a manifest: behind the scratch come slices that are read, then what `$more` says, then the place.
macro_rules! test {
    ($name:ident, $manifest:expr, $scratch:expr, [$($slice:expr),*], [$($more:expr),*]) => {{
        let (scratch, mut place) = ($scratch.lent($manifest)?, 0);
        // SAFETY: each buffer is one slice's pointer and length; those that are written (`scratch`, `place`, and what `$more` lends by
        // `&mut`) are each a vector or value of its own.
        let number = unsafe {
            $name(
                $manifest.bytes.as_ptr(), $manifest.bytes.len(), $manifest.expected_crc, scratch.as_mut_ptr(), scratch.len(),
                $($slice.as_ptr(), $slice.len(),)* $($more,)* &mut place,
            )
        };
        answered(number, place)
    }};
}

pub fn manifest_check(manifest: Manifest, scratch: &mut Scratch) -> Result<Head, Error> {
    let mut head = HeadBytes { bytes: [0; 600] };
    test!(pv_manifest_check, manifest, scratch, [], [&mut head])?;
    Head::read(&head)
}

pub fn library_check(manifest: Manifest, segments: &[u8], scratch: &mut Scratch) -> Result<Head, Error> {
    let mut head = HeadBytes { bytes: [0; 600] };
    test!(pv_library_check, manifest, scratch, [segments], [&mut head])?;
    Head::read(&head)
}

/// The size of a cache under the default options.
pub fn cache_size(manifest: Manifest, place: &Place, scratch: &mut Scratch) -> Result<usize, Error> {
    let (platform, root, mut size) = (&place.platform, &place.root, 0);
    let (limit, block) = (DEFAULT_MAX_CACHE_BYTES, DEFAULT_BUFFER_BYTES);
    test!(pv_cache_size, manifest, scratch, [platform, root], [limit, block, &mut size])?;
    count(size, "the cache's size")
}

/// Makes a cache of the size that `cache_size` gives.
pub fn cache_prepare(
    manifest: Manifest,
    segments: &[u8],
    place: &Place,
    scratch: &mut Scratch,
) -> Result<(Vec<u8>, Info), Error> {
    let mut cache: Vec<u8> = zeros(cache_size(manifest, place, scratch)?)?;
    let (platform, root, mut info) = (&place.platform, &place.root, Info::default());
    let (limit, block) = (DEFAULT_MAX_CACHE_BYTES, DEFAULT_BUFFER_BYTES);
    test!(
        pv_cache_prepare,
        manifest,
        scratch,
        [segments, platform, root],
        [limit, block, cache.as_mut_ptr(), cache.len(), &mut info]
    )?;
    if info.cache_bytes != cache.len() as u64 {
        return Err(Error::broken("the cache's size"));
    }
    Ok((cache, info))
}

/// The rows of a library as a search is lent them, with the state that belongs to them.
enum Kept {
    Cached { state: Box<CacheState>, cache: Vec<u8> },
    Resident { state: Box<ResidentState>, codes: Vec<i8>, scales: Vec<f64>, norms: Vec<i64> },
}
pub struct Rows {
    kept: Kept,
    /// The library's rows.
    rows: usize,
}

/// What a search is asked.
#[derive(Clone, Copy)]
pub struct Call<'a> {
    pub manifest: &'a [u8],
    pub segments: &'a [u8],
    pub query: &'a [f32],
    /// The ids handed in; without them all are wanted.
    pub wanted: Option<&'a [u64]>,
    pub k: usize,
    pub limit: usize,
}

/// A list: what the report says, and of each place the id, distance, row and where its metadata lies in the segments.
pub struct Found {
    pub report: Report,
    pub ids: Vec<u64>,
    pub distances: Vec<f64>,
    pub rows: Vec<u64>,
    pub metadata: Vec<Range<usize>>,
}

/// The slices lent to a search.
struct Lent {
    id_work: Vec<u64>,
    keys: Vec<u64>,
    candidates: Vec<u64>,
    ids: Vec<u64>,
    distances: Vec<f64>,
    rows: Vec<u64>,
    starts: Vec<u64>,
    lengths: Vec<u32>,
}
impl Lent {
    /// As long as the search wants them: a k or limit beyond its bound, or too many ids, are refused before the slices are looked at.
    fn new(rows: usize, call: &Call) -> Result<Self, Error> {
        let places = call.k.min(MAX_K).min(rows);
        let candidates = call.limit.min(MAX_LIMIT).min(rows);
        Ok(Self {
            id_work: zeros(call.wanted.map_or(0, |wanted| wanted.len().min(MAX_IDS)))?,
            keys: zeros(candidates)?,
            candidates: zeros(candidates)?,
            ids: zeros(places)?,
            distances: zeros(places)?,
            rows: zeros(places)?,
            starts: zeros(places)?,
            lengths: zeros(places)?,
        })
    }
}

/// Calls one function: over the slices of rows, with the arguments for the ids handed in, the answer going to `$out`.
macro_rules! call {
    ($name:ident, $state:expr, [$($rows:expr),*], [$($ids:expr),*], $call:expr, $lent:expr, $out:expr) => {{
        let mut place = 0;
        // SAFETY: each buffer is one slice's pointer and length; those that are written (`$lent`, `$out`, `place`) are lent by `&mut`,
        // each a vector or value of its own.
        let number = unsafe {
            $name(
                &**$state, $call.manifest.as_ptr(), $call.manifest.len(), $call.segments.as_ptr(), $call.segments.len(),
                $($rows.as_ptr(), $rows.len(),)* $($ids,)*
                $call.query.as_ptr(), $call.query.len(), $call.k, $call.limit,
                $lent.keys.as_mut_ptr(), $lent.keys.len(), $lent.candidates.as_mut_ptr(), $lent.candidates.len(),
                $lent.ids.as_mut_ptr(), $lent.ids.len(), $lent.distances.as_mut_ptr(), $lent.distances.len(),
                $lent.rows.as_mut_ptr(), $lent.rows.len(), $lent.starts.as_mut_ptr(), $lent.starts.len(),
                $lent.lengths.as_mut_ptr(), $lent.lengths.len(), $out, &mut place,
            )
        };
        answered(number, place)
    }};
}
/// Calls the one of four functions that fits the rows kept and the ids wanted.
macro_rules! call_of {
    ($cached:ident, $cached_ids:ident, $resident:ident, $resident_ids:ident, $kept:expr, $call:expr, $lent:expr, $out:expr) => {
        match ($kept, $call.wanted) {
            (Kept::Cached { state, cache }, None) => call!($cached, state, [cache], [], $call, $lent, $out),
            (Kept::Cached { state, cache }, Some(wanted)) => call!(
                $cached_ids,
                state,
                [cache],
                [wanted.as_ptr(), wanted.len(), $lent.id_work.as_mut_ptr(), $lent.id_work.len()],
                $call,
                $lent,
                $out
            ),
            (Kept::Resident { state, codes, scales, norms }, None) => {
                call!($resident, state, [codes, scales, norms], [], $call, $lent, $out)
            }
            (Kept::Resident { state, codes, scales, norms }, Some(wanted)) => call!(
                $resident_ids,
                state,
                [codes, scales, norms],
                [wanted.as_ptr(), wanted.len(), $lent.id_work.as_mut_ptr(), $lent.id_work.len()],
                $call,
                $lent,
                $out
            ),
        }
    };
}

impl Rows {
    /// Opens a cache.
    pub fn open(manifest: Manifest, cache: Vec<u8>, place: &Place, scratch: &mut Scratch) -> Result<Self, Error> {
        let (platform, root, mut state) = (&place.platform, &place.root, Box::new(CacheState { bytes: [0; 608] }));
        let (limit, block) = (DEFAULT_MAX_CACHE_BYTES, DEFAULT_BUFFER_BYTES);
        test!(pv_cache_open, manifest, scratch, [cache, platform, root], [limit, block, &mut *state])?;
        let rows = count(number_at(&state.bytes, 80), "the state")?;
        Ok(Self { kept: Kept::Cached { state, cache }, rows })
    }
    /// Builds resident rows of an accepted library.
    pub fn build(manifest: Manifest, segments: &[u8], head: &Head, scratch: &mut Scratch) -> Result<Self, Error> {
        // A product beyond the bound of 8 is refused before the slices are looked at.
        let codes = head.rows.saturating_mul(head.dimensions);
        let mut codes: Vec<i8> = zeros(if codes > MAX_CODE_BYTES { 0 } else { codes })?;
        let (mut scales, mut norms): (Vec<f64>, Vec<i64>) = (zeros(head.rows)?, zeros(head.rows)?);
        let mut state = Box::new(ResidentState { bytes: [0; 624] });
        test!(
            pv_resident_build,
            manifest,
            scratch,
            [segments],
            [
                codes.as_mut_ptr(),
                codes.len(),
                scales.as_mut_ptr(),
                scales.len(),
                norms.as_mut_ptr(),
                norms.len(),
                &mut *state
            ]
        )?;
        let rows = count(number_at(&state.bytes, 80), "the state")?;
        Ok(Self { kept: Kept::Resident { state, codes, scales, norms }, rows })
    }
    pub fn search(&self, call: &Call) -> Result<Found, Error> {
        let mut lent = Lent::new(self.rows, call)?;
        let mut report = Report::default();
        call_of!(
            pv_search_cached,
            pv_search_cached_ids,
            pv_search_resident,
            pv_search_resident_ids,
            &self.kept,
            call,
            lent,
            &mut report
        )?;
        let places = count(report.count, "the count of places")?;
        if places > lent.ids.len() {
            return Err(Error::broken("the count of places"));
        }
        let mut metadata = Vec::with_capacity(places);
        for (&start, &length) in lent.starts.iter().zip(&lent.lengths).take(places) {
            let start = count(start, "a metadata start")?;
            let end = start.checked_add(length as usize).filter(|&end| end <= call.segments.len());
            metadata.push(start..end.ok_or_else(|| Error::broken("a metadata start"))?);
        }
        lent.ids.truncate(places);
        lent.distances.truncate(places);
        lent.rows.truncate(places);
        Ok(Found { report, ids: lent.ids, distances: lent.distances, rows: lent.rows, metadata })
    }
    /// The number of places at which the list holds the id that the exact list holds there.
    pub fn agreement(&self, call: &Call) -> Result<u64, Error> {
        let mut lent = Lent::new(self.rows, call)?;
        let mut agreement = 0;
        call_of!(
            pv_agreement_cached,
            pv_agreement_cached_ids,
            pv_agreement_resident,
            pv_agreement_resident_ids,
            &self.kept,
            call,
            lent,
            &mut agreement
        )?;
        Ok(agreement)
    }
}

#[cfg(test)]
mod tests {
    use super::*;
    use crate::refusal::HEADER;

    /// Each function is declared with the header's types, argument by argument.
    #[test]
    fn declared_as_in_the_header() {
        assert_eq!((CHECKS.len(), SEARCHES.len()), (6, 8));
        for (name, types) in CHECKS.iter().chain(SEARCHES) {
            let (_, rest) = HEADER.split_once(&format!("uint32_t {name}(")).expect(name);
            let (arguments, _) = rest.split_once(')').unwrap();
            let wanted: Vec<String> = arguments.split(',').map(rust_type).collect();
            let found: Vec<String> = types.iter().map(|kind| kind.replace("* ", "*")).collect();
            assert_eq!(found, wanted, "{name}");
        }
    }
    /// The Rust type of an argument in C, `const uint8_t *manifest`.
    fn rust_type(argument: &str) -> String {
        let words: Vec<&str> = argument.split_whitespace().collect();
        let (name, words) = words.split_last().unwrap();
        let (constant, base) = match words {
            ["const", base] => (true, base),
            [base] => (false, base),
            _ => panic!("{argument}"),
        };
        let base = match *base {
            "uint8_t" => "u8",
            "int8_t" => "i8",
            "uint32_t" => "u32",
            "uint64_t" => "u64",
            "int64_t" => "i64",
            "size_t" => "usize",
            "float" => "f32",
            "double" => "f64",
            "pv_head" => "HeadBytes",
            "pv_cache_state" => "CacheState",
            "pv_resident_state" => "ResidentState",
            "pv_info" => "Info",
            "pv_report" => "Report",
            _ => panic!("{argument}"),
        };
        let pointer = if !name.starts_with('*') {
            ""
        } else if constant {
            "*const "
        } else {
            "*mut "
        };
        format!("{pointer}{base}")
    }
    #[test]
    fn structs_are_laid_out_as_in_the_header() {
        for (name, size) in [
            ("HEAD", size_of::<HeadBytes>()),
            ("CACHE_STATE", size_of::<CacheState>()),
            ("RESIDENT_STATE", size_of::<ResidentState>()),
        ] {
            assert!(HEADER.contains(&format!("#define PV_{name}_BYTES {size}\n")), "{name}");
        }
        for (name, at) in [
            ("GENERATION", 8),
            ("SEQUENCE", 16),
            ("DIMENSIONS", 24),
            ("METRIC", 56),
            ("MODEL_LENGTH", 64),
            ("SEGMENTS", 72),
            ("ROWS", 80),
            ("HEAD_MODEL", 88),
        ] {
            let start = format!("#define PV_AT_{name} ");
            let line = HEADER.lines().find_map(|line| line.strip_prefix(start.as_str())).expect(name);
            assert_eq!(line.split_whitespace().next(), Some(at.to_string().as_str()), "{name}");
        }
        assert_eq!((size_of::<Info>(), size_of::<Report>()), (40, 56));
    }
    #[test]
    fn fields_of_the_structs_are_in_the_headers_order() {
        for (name, fields) in [
            ("pv_info", ["generation", "sequence", "cache_bytes", "code_bytes", "parameter_bytes"].as_slice()),
            ("pv_report", &["generation", "sequence", "eligible", "measured", "complete", "approximate", "count"]),
        ] {
            let (_, rest) = HEADER.split_once(&format!("typedef struct {name} {{")).expect(name);
            let (body, _) = rest.split_once('}').unwrap();
            let found: Vec<&str> = body
                .lines()
                .filter_map(|line| line.trim().strip_prefix("uint64_t ")?.split_once(';').map(|(field, _)| field))
                .collect();
            assert_eq!(found, fields, "{name}");
        }
    }
}
