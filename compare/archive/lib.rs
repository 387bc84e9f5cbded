//! The entries of the archive `libapi.a` as include/pivatsohy.h has them, over slices: what is lent goes in as it is, and each call
//! answers the refusal's number (0 for success).

pub const HEAD: usize = 600;
pub const CACHE_STATE: usize = 608;
pub const RESIDENT_STATE: usize = 624;

/// Distance, id and row of a place: `pv_record`.
#[repr(C)]
#[derive(Clone, Copy, Debug, Default, PartialEq)]
pub struct Record {
    pub distance: f64,
    pub id: u64,
    pub row: u64,
}

/// A manifest, its expected CRC-32 and the tiling scratch.
pub struct Manifest<'a> {
    pub bytes: &'a [u8],
    pub expected_crc: u32,
    pub scratch: &'a mut [u64],
}

/// What a cache's identity and size depend on beside the manifest.
#[derive(Clone, Copy)]
pub struct Place<'a> {
    pub platform: &'a [u8],
    pub root: &'a [u8],
    pub max_cache_bytes: usize,
    pub buffer_bytes: usize,
}

/// The rows that a search scans, with the state that opening or building returned.
#[derive(Clone, Copy)]
pub enum Rows<'a> {
    Cached { state: &'a [u8], cache: &'a [u8] },
    Resident { state: &'a [u8], codes: &'a [i8], scales: &'a [f64], norms: &'a [i64] },
}

/// A search: over all ids, or over those handed in.
#[derive(Clone, Copy)]
pub struct Search<'a> {
    pub manifest: &'a [u8],
    pub segments: &'a [u8],
    pub rows: Rows<'a>,
    pub wanted: Option<&'a [u64]>,
    pub query: &'a [f32],
    pub k: usize,
    pub limit: usize,
}

/// The slices that a search writes.
pub struct Lent<'a> {
    pub id_work: &'a mut [u64],
    pub keys: &'a mut [u64],
    pub candidates: &'a mut [u64],
    pub ids: &'a mut [u64],
    pub distances: &'a mut [f64],
    pub rows: &'a mut [u64],
    pub starts: &'a mut [u64],
    pub lengths: &'a mut [u32],
}

#[rustfmt::skip]
unsafe extern "C" {
    fn pv_manifest_check(_: *const u8, _: usize, crc: u32, _: *mut u64, _: usize, head: *mut u8, place: *mut u64) -> u32;
    fn pv_library_check(
        _: *const u8, _: usize, crc: u32, _: *mut u64, _: usize, segments: *const u8, _: usize, head: *mut u8, place: *mut u64,
    ) -> u32;
    fn pv_cache_size(
        _: *const u8, _: usize, crc: u32, _: *mut u64, _: usize, platform: *const u8, _: usize, root: *const u8, _: usize,
        max_cache_bytes: usize, buffer_bytes: usize, size: *mut u64, place: *mut u64,
    ) -> u32;
    fn pv_cache_prepare(
        _: *const u8, _: usize, crc: u32, _: *mut u64, _: usize, segments: *const u8, _: usize, platform: *const u8, _: usize,
        root: *const u8, _: usize, max_cache_bytes: usize, buffer_bytes: usize, cache: *mut u8, _: usize, info: *mut u64, place: *mut u64,
    ) -> u32;
    fn pv_cache_open(
        _: *const u8, _: usize, crc: u32, _: *mut u64, _: usize, cache: *const u8, _: usize, platform: *const u8, _: usize,
        root: *const u8, _: usize, max_cache_bytes: usize, buffer_bytes: usize, state: *mut u8, place: *mut u64,
    ) -> u32;
    fn pv_resident_build(
        _: *const u8, _: usize, crc: u32, _: *mut u64, _: usize, segments: *const u8, _: usize, codes: *mut i8, _: usize,
        scales: *mut f64, _: usize, norms: *mut i64, _: usize, state: *mut u8, place: *mut u64,
    ) -> u32;
    fn pv_distance_four(
        metric: u32, query: *const f32, _: usize, _: *const f32, _: usize, _: *const f32, _: usize, _: *const f32, _: usize,
        _: *const f32, _: usize, distances: *mut f64,
    ) -> u32;
    fn pv_records(
        ids: *const u64, _: usize, distances: *const f64, _: usize, rows: *const u64, _: usize, count: usize, out: *mut Record, _: usize,
    ) -> u32;
}

/// The searches and agreement counts: `[..]` has the slices between segments and query, `out` is the report or the agreement.
#[rustfmt::skip]
macro_rules! searches {
    ($($name:ident [$($slice:ty),*];)*) => {
        unsafe extern "C" {
            $(fn $name(
                state: *const u8, manifest: *const u8, _: usize, segments: *const u8, _: usize, $(_: $slice, _: usize,)*
                query: *const f32, _: usize, k: usize, limit: usize, keys: *mut u64, _: usize, candidates: *mut u64, _: usize,
                ids: *mut u64, _: usize, distances: *mut f64, _: usize, rows: *mut u64, _: usize, starts: *mut u64, _: usize,
                lengths: *mut u32, _: usize, out: *mut u64, place: *mut u64,
            ) -> u32;)*
        }
    };
}
searches! {
    pv_search_cached [*const u8];
    pv_search_cached_ids [*const u8, *const u64, *mut u64];
    pv_search_resident [*const i8, *const f64, *const i64];
    pv_search_resident_ids [*const i8, *const f64, *const i64, *const u64, *mut u64];
    pv_agreement_cached [*const u8];
    pv_agreement_cached_ids [*const u8, *const u64, *mut u64];
    pv_agreement_resident [*const i8, *const f64, *const i64];
    pv_agreement_resident_ids [*const i8, *const f64, *const i64, *const u64, *mut u64];
}

#[rustfmt::skip]
macro_rules! call {
    ($name:ident, $search:ident, $lent:ident, $out:ident, $place:ident, $state:ident, [$($slice:ident),*], [$($work:ident),*]) => {
        unsafe {
            $name(
                $state.as_ptr(), $search.manifest.as_ptr(), $search.manifest.len(), $search.segments.as_ptr(), $search.segments.len(),
                $($slice.as_ptr(), $slice.len(),)* $($work.as_mut_ptr(), $work.len(),)*
                $search.query.as_ptr(), $search.query.len(), $search.k, $search.limit,
                $lent.keys.as_mut_ptr(), $lent.keys.len(), $lent.candidates.as_mut_ptr(), $lent.candidates.len(),
                $lent.ids.as_mut_ptr(), $lent.ids.len(), $lent.distances.as_mut_ptr(), $lent.distances.len(),
                $lent.rows.as_mut_ptr(), $lent.rows.len(), $lent.starts.as_mut_ptr(), $lent.starts.len(),
                $lent.lengths.as_mut_ptr(), $lent.lengths.len(), $out.as_mut_ptr(), $place,
            )
        }
    };
}
macro_rules! any_rows {
    ($cached:ident, $cached_ids:ident, $resident:ident, $resident_ids:ident, $search:ident, $lent:ident, $out:ident, $place:ident) => {
        match ($search.rows, $search.wanted) {
            (Rows::Cached { state, cache }, None) => call!($cached, $search, $lent, $out, $place, state, [cache], []),
            (Rows::Cached { state, cache }, Some(wanted)) => {
                let work = &mut *$lent.id_work;
                call!($cached_ids, $search, $lent, $out, $place, state, [cache, wanted], [work])
            }
            (Rows::Resident { state, codes, scales, norms }, None) => {
                call!($resident, $search, $lent, $out, $place, state, [codes, scales, norms], [])
            }
            (Rows::Resident { state, codes, scales, norms }, Some(wanted)) => {
                let work = &mut *$lent.id_work;
                call!($resident_ids, $search, $lent, $out, $place, state, [codes, scales, norms, wanted], [work])
            }
        }
    };
}

impl Rows<'_> {
    /// A state of another length would be read past its end.
    fn assert_state(&self) {
        match self {
            Rows::Cached { state, .. } => assert_eq!(state.len(), CACHE_STATE),
            Rows::Resident { state, .. } => assert_eq!(state.len(), RESIDENT_STATE),
        }
    }
}

/// Report: generation, sequence, eligible, measured, complete, approximate, count.
pub fn search(search: &Search, lent: &mut Lent, report: &mut [u64; 7], place: &mut u64) -> u32 {
    search.rows.assert_state();
    any_rows!(pv_search_cached, pv_search_cached_ids, pv_search_resident, pv_search_resident_ids, search, lent, report, place)
}

#[rustfmt::skip]
pub fn agreement(search: &Search, lent: &mut Lent, agreement: &mut [u64; 1], place: &mut u64) -> u32 {
    search.rows.assert_state();
    any_rows!(
        pv_agreement_cached, pv_agreement_cached_ids, pv_agreement_resident, pv_agreement_resident_ids, search, lent, agreement, place
    )
}

#[rustfmt::skip]
impl Manifest<'_> {
    pub fn check(&mut self, head: &mut [u8; HEAD], place: &mut u64) -> u32 {
        unsafe {
            pv_manifest_check(
                self.bytes.as_ptr(), self.bytes.len(), self.expected_crc, self.scratch.as_mut_ptr(), self.scratch.len(),
                head.as_mut_ptr(), place,
            )
        }
    }

    pub fn library_check(&mut self, segments: &[u8], head: &mut [u8; HEAD], place: &mut u64) -> u32 {
        unsafe {
            pv_library_check(
                self.bytes.as_ptr(), self.bytes.len(), self.expected_crc, self.scratch.as_mut_ptr(), self.scratch.len(),
                segments.as_ptr(), segments.len(), head.as_mut_ptr(), place,
            )
        }
    }

    pub fn cache_size(&mut self, at: Place, size: &mut u64, place: &mut u64) -> u32 {
        unsafe {
            pv_cache_size(
                self.bytes.as_ptr(), self.bytes.len(), self.expected_crc, self.scratch.as_mut_ptr(), self.scratch.len(),
                at.platform.as_ptr(), at.platform.len(), at.root.as_ptr(), at.root.len(), at.max_cache_bytes, at.buffer_bytes, size, place,
            )
        }
    }

    /// Info: generation, sequence, cache bytes, code bytes, parameter bytes.
    pub fn prepare(&mut self, segments: &[u8], at: Place, cache: &mut [u8], info: &mut [u64; 5], place: &mut u64) -> u32 {
        unsafe {
            pv_cache_prepare(
                self.bytes.as_ptr(), self.bytes.len(), self.expected_crc, self.scratch.as_mut_ptr(), self.scratch.len(),
                segments.as_ptr(), segments.len(), at.platform.as_ptr(), at.platform.len(), at.root.as_ptr(), at.root.len(),
                at.max_cache_bytes, at.buffer_bytes, cache.as_mut_ptr(), cache.len(), info.as_mut_ptr(), place,
            )
        }
    }

    pub fn open(&mut self, cache: &[u8], at: Place, state: &mut [u8; CACHE_STATE], place: &mut u64) -> u32 {
        unsafe {
            pv_cache_open(
                self.bytes.as_ptr(), self.bytes.len(), self.expected_crc, self.scratch.as_mut_ptr(), self.scratch.len(),
                cache.as_ptr(), cache.len(), at.platform.as_ptr(), at.platform.len(), at.root.as_ptr(), at.root.len(),
                at.max_cache_bytes, at.buffer_bytes, state.as_mut_ptr(), place,
            )
        }
    }

    pub fn build(
        &mut self, segments: &[u8], codes: &mut [i8], scales: &mut [f64], norms: &mut [i64], state: &mut [u8; RESIDENT_STATE],
        place: &mut u64,
    ) -> u32 {
        unsafe {
            pv_resident_build(
                self.bytes.as_ptr(), self.bytes.len(), self.expected_crc, self.scratch.as_mut_ptr(), self.scratch.len(),
                segments.as_ptr(), segments.len(), codes.as_mut_ptr(), codes.len(), scales.as_mut_ptr(), scales.len(),
                norms.as_mut_ptr(), norms.len(), state.as_mut_ptr(), place,
            )
        }
    }
}

#[rustfmt::skip]
pub fn distance_four(metric: u32, query: &[f32], [a, b, c, d]: [&[f32]; 4], distances: &mut [f64; 4]) -> u32 {
    unsafe {
        pv_distance_four(
            metric, query.as_ptr(), query.len(), a.as_ptr(), a.len(), b.as_ptr(), b.len(), c.as_ptr(), c.len(), d.as_ptr(), d.len(),
            distances.as_mut_ptr(),
        )
    }
}

#[rustfmt::skip]
pub fn records(ids: &[u64], distances: &[f64], rows: &[u64], count: usize, out: &mut [Record]) -> u32 {
    unsafe {
        pv_records(
            ids.as_ptr(), ids.len(), distances.as_ptr(), distances.len(), rows.as_ptr(), rows.len(), count, out.as_mut_ptr(), out.len(),
        )
    }
}
