//! Calls of the archive on guarded slices. Each call is held to what document 01 says of the slices: which of them change, and that no
//! byte outside of them does.
use crate::{
    guard::Guarded,
    library::{Rng, Written},
    tally::Tally,
};
use archive::{Manifest, Place, Record, Rows, Search};
use std::fmt::Debug;

pub type Check<T = ()> = Result<T, String>;
pub const MARK: u64 = 0x5a5a_5a5a_5a5a_5a5a;
const MARK_BYTE: u8 = 0x5a;

/// Number and place.
pub type Refusal = (u32, u64);

pub fn same<T: PartialEq + Debug + ?Sized>(what: &str, ours: &T, theirs: &T) -> Check {
    if ours == theirs { Ok(()) } else { Err(format!("{what}: ours {ours:?}, the Rust's {theirs:?}")) }
}
pub fn holds(what: &str, condition: bool) -> Check {
    if condition { Ok(()) } else { Err(what.into()) }
}
fn is<T: PartialEq>(slice: &[T], value: T) -> bool {
    slice.iter().all(|x| *x == value)
}
fn intact<T: Copy>(what: &str, slice: &Guarded<T>) -> Check {
    holds(&format!("{what}: a byte beside it was written"), slice.intact())
}

/// A library as it is lent: its slices can only be read.
pub struct Lent {
    pub manifest: Guarded<u8>,
    pub segments: Guarded<u8>,
    pub expected_crc: u32,
    /// Elements of a scratch that is long enough.
    pub rows: usize,
}
/// Resident rows as building left them.
pub struct Resident {
    pub state: Guarded<u8>,
    pub codes: Guarded<i8>,
    pub scales: Guarded<f64>,
    pub norms: Guarded<i64>,
}
impl Resident {
    pub fn rows(&self) -> Rows<'_> {
        Rows::Resident { state: &self.state, codes: &self.codes, scales: &self.scales, norms: &self.norms }
    }
}
/// A cache and the state that opening it left.
pub struct Cached {
    pub state: Guarded<u8>,
    pub cache: Guarded<u8>,
}
impl Cached {
    pub fn rows(&self) -> Rows<'_> {
        Rows::Cached { state: &self.state, cache: &self.cache }
    }
}

/// What a search or an agreement call answered. The list is what the answer slices hold of it.
#[derive(Debug, Default)]
pub struct Found {
    pub refusal: Refusal,
    pub report: [u64; 7],
    pub agreement: u64,
    pub list: Vec<Listed>,
}
#[derive(Debug, Clone, Copy, PartialEq)]
pub struct Listed {
    pub id: u64,
    pub bits: u64,
    pub row: u64,
    pub start: u64,
    pub length: u32,
}

/// Which lent slice is too short.
#[derive(Clone, Copy, PartialEq)]
pub enum Short {
    None,
    Any,
}

pub struct Ours<'a> {
    pub rng: &'a mut Rng,
    pub tally: &'a mut Tally,
}
impl Ours<'_> {
    fn filled<T: Copy>(&mut self, length: usize, value: T) -> Guarded<T> {
        Guarded::filled(self.rng.side(), length, value)
    }
    fn of<T: Copy>(&mut self, values: &[T]) -> Guarded<T> {
        Guarded::of(self.rng.side(), values)
    }
    /// A length of at least `needed`.
    fn enough(&mut self, needed: usize) -> usize {
        needed + self.rng.pick(&[0, 0, 0, 1, 7])
    }

    /// A slice that can only be read.
    pub fn lend_slice<T: Copy>(&mut self, values: &[T]) -> Guarded<T> {
        self.of(values).frozen()
    }
    pub fn lend(&mut self, written: &Written, expected_crc: u32, rows: usize) -> Lent {
        Lent { manifest: self.of(&written.manifest).frozen(), segments: self.of(&written.segments).frozen(), expected_crc, rows }
    }

    /// A call that is lent a manifest and a scratch. The scratch stays on 1, 2, 3 and its own 11, and else ends zero.
    fn over(&mut self, lent: &Lent, short: bool, call: impl FnOnce(&mut Manifest, &mut u64) -> u32) -> Check<Refusal> {
        let length = if short { self.rng.below(lent.rows) } else { self.enough(lent.rows) };
        let (mut scratch, mut place) = (self.filled(length, MARK), self.filled(1, MARK));
        let number = {
            let mut manifest = Manifest { bytes: &lent.manifest, expected_crc: lent.expected_crc, scratch: &mut scratch };
            call(&mut manifest, &mut place[0])
        };
        self.tally.calls += 1;
        intact("scratch", &scratch)?;
        intact("place", &place)?;
        let stays = matches!(number, 1..=3) || (number == 11 && short);
        holds("the scratch ends zero, or stays on 1, 2, 3 and its 11", is(&scratch, if stays { MARK } else { 0 }))?;
        placed((number, place[0]))
    }
    /// The whole of a lent answer is zero on a refusal.
    fn zero_if_refused<T: Copy + PartialEq>(&self, what: &str, number: u32, slice: &Guarded<T>, zero: T) -> Check {
        intact(what, slice)?;
        holds(&format!("{what} is zero on a refusal"), number == 0 || is(slice, zero))
    }

    pub fn manifest_check(&mut self, lent: &Lent, short: bool) -> Check<(Refusal, Guarded<u8>)> {
        let mut head = self.filled(archive::HEAD, MARK_BYTE);
        let refusal = self.over(lent, short, |manifest, place| manifest.check((&mut *head).try_into().unwrap(), place))?;
        self.zero_if_refused("head", refusal.0, &head, 0)?;
        Ok((refusal, head))
    }
    pub fn library_check(&mut self, lent: &Lent, short: bool) -> Check<(Refusal, Guarded<u8>)> {
        let mut head = self.filled(archive::HEAD, MARK_BYTE);
        let refusal =
            self.over(lent, short, |manifest, place| manifest.library_check(&lent.segments, (&mut *head).try_into().unwrap(), place))?;
        self.zero_if_refused("head", refusal.0, &head, 0)?;
        Ok((refusal, head))
    }
    pub fn cache_size(&mut self, lent: &Lent, at: Place) -> Check<(Refusal, u64)> {
        let mut size = self.filled(1, MARK);
        let refusal = self.at(lent, false, at, |manifest, at, place| manifest.cache_size(at, &mut size[0], place))?;
        self.zero_if_refused("size", refusal.0, &size, 0)?;
        Ok((refusal, size[0]))
    }
    /// A call that is lent platform and root too.
    fn at(&mut self, lent: &Lent, short: bool, at: Place, call: impl FnOnce(&mut Manifest, Place, &mut u64) -> u32) -> Check<Refusal> {
        let (platform, root) = (self.of(at.platform).frozen(), self.of(at.root).frozen());
        self.over(lent, short, |manifest, place| call(manifest, Place { platform: &platform, root: &root, ..at }, place))
    }
    /// A cache of `length` bytes, filled before: it stays on a refusal.
    pub fn prepare(&mut self, lent: &Lent, at: Place, length: usize) -> Check<(Refusal, [u64; 5], Guarded<u8>)> {
        let (mut cache, mut info) = (self.filled(length, MARK_BYTE), self.filled(5, MARK));
        let refusal = self.at(lent, false, at, |manifest, at, place| {
            manifest.prepare(&lent.segments, at, &mut cache, (&mut *info).try_into().unwrap(), place)
        })?;
        intact("cache", &cache)?;
        holds("the cache stays on a refusal", refusal.0 == 0 || is(&cache, MARK_BYTE))?;
        self.zero_if_refused("info", refusal.0, &info, 0)?;
        Ok((refusal, (&*info).try_into().unwrap(), cache))
    }
    /// Bytes past a cache's size stay as `prepare` filled them.
    pub fn stays(&self, rest: &[u8]) -> bool {
        is(rest, MARK_BYTE)
    }
    pub fn open(&mut self, lent: &Lent, at: Place, cache: &[u8], short: bool) -> Check<(Refusal, Cached)> {
        let cache = self.of(cache).frozen();
        let mut state = self.filled(archive::CACHE_STATE, MARK_BYTE);
        let refusal =
            self.at(lent, short, at, |manifest, at, place| manifest.open(&cache, at, (&mut *state).try_into().unwrap(), place))?;
        self.zero_if_refused("state", refusal.0, &state, 0)?;
        Ok((refusal, Cached { state: state.frozen(), cache }))
    }
    /// Slices of `lengths` elements, filled before: they stay on a refusal, and past the rows' part in any case.
    pub fn build(&mut self, lent: &Lent, lengths: [usize; 3], used: [usize; 3]) -> Check<(Refusal, Resident)> {
        let (mark, mark_code) = (MARK as i64, MARK_BYTE as i8);
        let mut codes = self.filled(lengths[0], mark_code);
        let mut scales = self.filled(lengths[1], f64::from_bits(MARK));
        let mut norms = self.filled(lengths[2], mark);
        let mut state = self.filled(archive::RESIDENT_STATE, MARK_BYTE);
        let refusal = self.over(lent, false, |manifest, place| {
            manifest.build(&lent.segments, &mut codes, &mut scales, &mut norms, (&mut *state).try_into().unwrap(), place)
        })?;
        intact("codes", &codes)?;
        intact("scales", &scales)?;
        intact("norms", &norms)?;
        self.zero_if_refused("state", refusal.0, &state, 0)?;
        let [c, s, n] = if refusal.0 == 0 { used } else { [0; 3] };
        holds(
            "resident elements past the rows stay, and all on a refusal",
            is(&codes[c..], mark_code) && is(&scales[s..], f64::from_bits(MARK)) && is(&norms[n..], mark),
        )?;
        Ok((refusal, Resident { state: state.frozen(), codes: codes.frozen(), scales: scales.frozen(), norms: norms.frozen() }))
    }

    /// A search or an agreement call; `rows` is the library's count.
    pub fn search(&mut self, search: Search, rows: usize, agreement: bool, short: Short) -> Check<Found> {
        let query = self.of(search.query).frozen();
        let wanted = search.wanted.map(|ids| self.of(ids).frozen());
        let search = Search { query: &query, wanted: wanted.as_deref(), ..search };
        // id slice, two candidate slices, five answer slices
        let (k, limit) = (search.k.min(rows), search.limit.min(rows));
        let needed = [wanted.as_ref().map_or(0, |ids| ids.len()), limit, limit, k, k, k, k, k];
        let mut lengths = needed.map(|needed| self.enough(needed));
        if short == Short::Any {
            let from: Vec<usize> = (0..8).filter(|&n| needed[n] > 0).collect();
            if let Some(&n) = from.get(self.rng.below(from.len().max(1))) {
                lengths[n] = self.rng.below(needed[n]);
            }
        }
        let (mut id_work, mut keys, mut candidates) =
            (self.filled(lengths[0], MARK), self.filled(lengths[1], MARK), self.filled(lengths[2], MARK));
        let mut ids = self.filled(lengths[3], MARK);
        let mut distances = self.filled(lengths[4], f64::from_bits(MARK));
        let (mut list_rows, mut starts) = (self.filled(lengths[5], MARK), self.filled(lengths[6], MARK));
        let mut list_lengths = self.filled(lengths[7], MARK as u32);
        let (mut out, mut place) = (self.filled(if agreement { 1 } else { 7 }, MARK), self.filled(1, MARK));
        let mut lent = archive::Lent {
            id_work: &mut id_work,
            keys: &mut keys,
            candidates: &mut candidates,
            ids: &mut ids,
            distances: &mut distances,
            rows: &mut list_rows,
            starts: &mut starts,
            lengths: &mut list_lengths,
        };
        let number = if agreement {
            archive::agreement(&search, &mut lent, (&mut *out).try_into().unwrap(), &mut place[0])
        } else {
            archive::search(&search, &mut lent, (&mut *out).try_into().unwrap(), &mut place[0])
        };
        self.tally.calls += 1;
        for (what, slice) in [
            ("id slice", &id_work),
            ("keys", &keys),
            ("candidates", &candidates),
            ("ids", &ids),
            ("rows", &list_rows),
            ("starts", &starts),
            ("place", &place),
        ] {
            intact(what, slice)?;
        }
        intact("distances", &distances)?;
        intact("lengths", &list_lengths)?;
        self.zero_if_refused("report or agreement", number, &out, 0)?;
        let used = if search.wanted.is_some() { &*id_work } else { &[] };
        let all = |value| is(used, value) && is(&keys, value) && is(&candidates, value);
        holds(
            "the working slices end zero once past 20, and stay before",
            match number {
                16..=20 => all(MARK),
                21 => all(MARK) || all(0),
                _ => all(0),
            },
        )?;
        let mut found = Found { refusal: placed((number, place[0]))?, ..Found::default() };
        // an agreement call does not tell the list's length: where the marks begin
        let count = match (number, agreement) {
            (0, false) => out[6] as usize,
            (0, true) => list_rows.iter().position(|&row| row == MARK).unwrap_or(list_rows.len()).min(k),
            _ => 0,
        };
        holds("a list of at most min(k, rows)", count <= k)?;
        if agreement {
            found.agreement = out[0];
        } else {
            found.report = (&*out).try_into().unwrap();
        }
        found.list = (0..count)
            .map(|n| Listed { id: ids[n], bits: distances[n].to_bits(), row: list_rows[n], start: starts[n], length: list_lengths[n] })
            .collect();
        holds(
            "answer slices past the list stay",
            is(&ids[count..], MARK)
                && distances[count..].iter().all(|x| x.to_bits() == MARK)
                && is(&list_rows[count..], MARK)
                && is(&starts[count..], MARK)
                && is(&list_lengths[count..], MARK as u32),
        )?;
        Ok(found)
    }

    pub fn four(&mut self, metric: u32, query: &[f32], vectors: [&[f32]; 4]) -> Check<(u32, [u64; 4])> {
        let query = self.of(query).frozen();
        let [a, b, c, d] = vectors.map(|v| self.of(v).frozen());
        let mut out = self.filled(4, f64::from_bits(MARK));
        let number = archive::distance_four(metric, &query, [&a, &b, &c, &d], (&mut *out).try_into().unwrap());
        self.tally.calls += 1;
        intact("four distances", &out)?;
        Ok((number, [0, 1, 2, 3].map(|n| out[n].to_bits())))
    }

    /// The first `count` places of the list as records, in a slice of `length`.
    pub fn records(&mut self, list: &[Listed], count: usize, length: usize) -> Check<(u32, Vec<Record>)> {
        let ids = self.of(&list.iter().map(|place| place.id).collect::<Vec<_>>()).frozen();
        let distances = self.of(&list.iter().map(|place| f64::from_bits(place.bits)).collect::<Vec<_>>()).frozen();
        let rows = self.of(&list.iter().map(|place| place.row).collect::<Vec<_>>()).frozen();
        let mark = Record { distance: 1.5, id: MARK, row: MARK };
        let mut out = self.filled(length, mark);
        let number = archive::records(&ids, &distances, &rows, count, &mut out);
        self.tally.calls += 1;
        intact("records", &out)?;
        let written = if number == 0 { count } else { 0 };
        holds("records past the count stay, and all on a refusal", is(&out[written..], mark))?;
        Ok((number, out[..written].to_vec()))
    }
}

/// Document 01 gives a place to 5, 6, 14 and 21 to 24 alone.
fn placed((number, place): Refusal) -> Check<Refusal> {
    holds("no place", place == 0 || matches!(number, 5 | 6 | 14 | 21..=24))?;
    Ok((number, place))
}
