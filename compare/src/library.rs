//! Random libraries, written out as MANIFEST and SEGMENTS.
use crate::guard::Side;
pub use crate::random::Rng;
use vecnook::{Metric, inside::crc32};

impl Rng {
    pub fn below(&mut self, bound: usize) -> usize {
        (self.next() % bound as u64) as usize
    }
    /// Once in `times`.
    pub fn once_in(&mut self, times: usize) -> bool {
        self.below(times) == 0
    }
    pub fn pick<T: Copy>(&mut self, from: &[T]) -> T {
        from[self.below(from.len())]
    }
    pub fn side(&mut self) -> Side {
        self.pick(&[Side::Before, Side::Behind])
    }
    /// From 0, under 1.
    fn part(&mut self) -> f32 {
        (self.next() >> 40) as f32 / (1 << 24) as f32
    }
    fn sign(&mut self) -> f32 {
        self.pick(&[1.0, -1.0])
    }
    /// Nearly standard normal, and the same bits on every machine: a sum of twelve.
    fn bell(&mut self) -> f32 {
        (0..12).map(|_| self.part()).sum::<f32>() - 6.0
    }
}

#[derive(Clone, Copy, Debug, PartialEq)]
pub enum Kind {
    Normal,
    /// Around a few centres, so that a small limit keeps the wrong rows.
    Clusters,
    /// Few values, and rows repeated: equal distances.
    Ties,
    /// Subnormal.
    Tiny,
    /// Up to the largest f32.
    Huge,
    /// A third of the vectors zero, of either sign.
    Zero,
    /// Quotients of exactly k + 0.5.
    Halves,
    /// Those, one f32 off.
    Near,
    /// Any finite bits.
    Bits,
    /// Each vector of another kind.
    Mixed,
}
pub const KINDS: [Kind; 10] =
    [Kind::Normal, Kind::Clusters, Kind::Ties, Kind::Tiny, Kind::Huge, Kind::Zero, Kind::Halves, Kind::Near, Kind::Bits, Kind::Mixed];
pub const METRICS: [Metric; 3] = [Metric::SquaredL2, Metric::Cosine, Metric::InnerProduct];

/// A vector that the metric accepts.
pub fn vector(rng: &mut Rng, kind: Kind, metric: Metric, dimensions: usize) -> Vec<f32> {
    let kind = if kind == Kind::Mixed { rng.pick(&KINDS[..9]) } else { kind };
    let power = 2f32.powi(rng.below(200) as i32 - 100);
    let (blank, centre) = (rng.once_in(3), rng.below(3) as f32);
    let mut v: Vec<f32> = (0..dimensions)
        .map(|n| match kind {
            Kind::Normal => rng.bell(),
            Kind::Clusters => 4.0 * centre - (n % 5) as f32 + 0.05 * rng.bell(),
            Kind::Ties => rng.pick(&[-1.0, -0.5, -0.0, 0.0, 0.5, 1.0]),
            Kind::Tiny => f32::from_bits(rng.next() as u32 & 0x807f_ffff & (u32::MAX >> rng.below(20))),
            Kind::Huge => rng.sign() * f32::MAX * (1.0 - rng.pick(&[0.0, 0.1, 1.0]) * rng.part()),
            Kind::Zero if blank => rng.sign() * 0.0,
            Kind::Zero => rng.bell(),
            Kind::Halves | Kind::Near => {
                let x = rng.sign() * (rng.below(127) as f32 + 0.5) * power;
                let step = if kind == Kind::Halves { 1 } else { rng.below(3) as u32 };
                f32::from_bits(x.to_bits() + step - 1)
            }
            _ => loop {
                let x = f32::from_bits(rng.next() as u32);
                if x.is_finite() {
                    break x;
                }
            },
        })
        .collect();
    if matches!(kind, Kind::Halves | Kind::Near) {
        let at = rng.below(dimensions);
        v[at] = 127.0 * power;
    }
    if metric == Metric::Cosine && v.iter().all(|&x| x == 0.0) {
        v[0] = if kind == Kind::Tiny { f32::from_bits(1) } else { 1.0 };
    }
    v
}

/// UTF-8 of all lengths of letters, of up to `most` bytes.
fn text(rng: &mut Rng, most: usize) -> String {
    let length = rng.below(most + 1);
    let mut out = String::with_capacity(length);
    loop {
        let c = rng.pick(&[
            'a',
            'Z',
            '0',
            ' ',
            '\0',
            '\u{7f}',
            '\u{80}',
            'é',
            '\u{7ff}',
            '\u{800}',
            '널',
            '\u{ffff}',
            '\u{10000}',
            '\u{10ffff}',
        ]);
        if out.len() + c.len_utf8() > length {
            return out;
        }
        out.push(c);
    }
}

pub struct Row {
    pub id: u64,
    pub vector: Vec<f32>,
    pub metadata: String,
}

/// What a library is made of; rows in the order in which they are written.
pub struct Plan {
    pub generation: u64,
    pub sequence: u64,
    pub metric: Metric,
    pub dimensions: usize,
    pub m: u32,
    pub ef: u32,
    pub seed: u64,
    pub model: String,
    pub rows: Vec<Row>,
    /// Rows of each segment.
    pub segments: Vec<usize>,
    pub kind: Kind,
}
impl Plan {
    pub fn random(rng: &mut Rng) -> Self {
        let dimensions = match rng.below(16) {
            0 => rng.pick(&[96, 100, 127, 128, 129, 200, 300]),
            1 if rng.once_in(8) => rng.pick(&[511, 768, 1024, 4095, 4096]),
            _ => 1 + rng.below(70),
        };
        let most = if dimensions > 300 { 12 } else { 600 };
        let count = match rng.below(8) {
            0 => rng.below(4),
            1..=3 => rng.below(40),
            4..=6 => rng.below(160),
            _ => rng.below(600),
        };
        let (metric, kind) = (rng.pick(&METRICS), rng.pick(&KINDS));
        let width = rng.pick(&[0, 0, 9, 40, 200]);
        let mut plan = Self::of(rng, count.min(most), dimensions, metric, kind, width);
        plan.generation = rng.pick(&[1, 2, 3, 1 << 40, u64::MAX]);
        plan.sequence = rng.pick(&[0, 7, u64::MAX]);
        (plan.m, plan.ef) = rng.pick(&[(16, 200), (2, 2), (64, 4096), (64, 64)]);
        plan.seed = rng.next();
        let length = rng.pick(&[1, 2, 9, 60, 512]);
        while plan.model.len() < length {
            let c = rng.pick(&['m', 'é', '널', '\u{10ffff}', ' ']);
            plan.model.push(if plan.model.len() + c.len_utf8() > length { '-' } else { c });
        }
        plan.segments = cut(rng, plan.rows.len());
        plan
    }
    /// Metadata of up to `width` bytes, and once in a while of up to 16,384; random distinct ids in random order; one segment.
    pub fn of(rng: &mut Rng, rows: usize, dimensions: usize, metric: Metric, kind: Kind, width: usize) -> Self {
        let mut ids: Vec<u64> = Vec::new();
        while ids.len() < rows {
            ids.extend((ids.len()..rows).map(|_| rng.next() >> rng.pick(&[0, 24, 44])));
            ids.sort();
            ids.dedup();
        }
        for n in (1..rows).rev() {
            ids.swap(n, rng.below(n + 1));
        }
        let mut list: Vec<Row> = Vec::with_capacity(rows);
        for id in ids {
            let again = kind == Kind::Ties && !list.is_empty() && rng.once_in(2);
            let vector = if again { list[rng.below(list.len())].vector.clone() } else { vector(rng, kind, metric, dimensions) };
            let most = if width > 0 && rng.once_in(4000) { 16_384 } else { width };
            list.push(Row { id, vector, metadata: text(rng, most) });
        }
        let segments = if rows == 0 { vec![] } else { vec![rows] };
        let model = String::new();
        Self { generation: 1, sequence: 0, metric, dimensions, m: 16, ef: 200, seed: 42, model, rows: list, segments, kind }
    }

    /// MANIFEST and SEGMENTS.
    pub fn written(&self) -> Written {
        let mut entries = Vec::with_capacity(self.rows.len());
        let (mut segments, mut table, mut rows) = (Vec::new(), Vec::new(), self.rows.iter());
        for (number, &count) in self.segments.iter().enumerate() {
            let start = segments.len();
            for row in rows.by_ref().take(count) {
                entries.push((row.id, [number as u32, (segments.len() - start) as u32, row.metadata.len() as u32]));
                segments.extend(row.id.to_le_bytes());
                segments.extend((row.metadata.len() as u32).to_le_bytes());
                segments.extend(row.vector.iter().flat_map(|x| x.to_le_bytes()));
                segments.extend(row.metadata.as_bytes());
            }
            let crc = crc32(&segments[start..]);
            segments.extend(crc.to_le_bytes());
            table.push(((segments.len() - start) as u64, crc));
        }
        entries.sort();
        Written { manifest: self.manifest(&table, &entries), segments }
    }
    /// A manifest with these lengths and CRC-32 of segments and these entries: id; segment, offset and metadata length.
    pub fn manifest(&self, table: &[(u64, u32)], entries: &[(u64, [u32; 3])]) -> Vec<u8> {
        let mut out = Vec::with_capacity(66 + self.model.len() + 12 * table.len() + 20 * entries.len());
        out.extend(b"VECGEN01");
        out.extend(self.generation.to_le_bytes());
        out.extend(self.sequence.to_le_bytes());
        for x in [self.dimensions as u32, self.m, self.ef] {
            out.extend(x.to_le_bytes());
        }
        out.extend(self.seed.to_le_bytes());
        out.push(METRICS.iter().position(|&m| m == self.metric).unwrap() as u8);
        out.extend((self.model.len() as u32).to_le_bytes());
        out.extend(self.model.as_bytes());
        out.extend((table.len() as u32).to_le_bytes());
        out.extend((entries.len() as u64).to_le_bytes());
        for (length, crc) in table {
            out.extend(length.to_le_bytes());
            out.extend(crc.to_le_bytes());
        }
        for (id, rest) in entries {
            out.extend(id.to_le_bytes());
            out.extend(rest.iter().flat_map(|x| x.to_le_bytes()));
        }
        let crc = crc32(&out);
        out.extend(crc.to_le_bytes());
        out
    }
}
/// Rows dealt out over some segments, none of them empty.
fn cut(rng: &mut Rng, rows: usize) -> Vec<usize> {
    let most = rng.pick(&[1, 1, 2, 3, 4, 9]);
    let (mut out, mut left) = (Vec::new(), rows);
    while left > 0 {
        let part = if out.len() + 1 == most { left } else { 1 + rng.below(left) };
        out.push(part);
        left -= part;
    }
    out
}

/// The bytes of a library.
#[derive(Clone)]
pub struct Written {
    pub manifest: Vec<u8>,
    pub segments: Vec<u8>,
}
pub fn u32_at(bytes: &[u8], at: usize) -> u32 {
    bytes.get(at..at + 4).map_or(0, |b| u32::from_le_bytes(b.try_into().unwrap()))
}
pub fn u64_at(bytes: &[u8], at: usize) -> u64 {
    bytes.get(at..at + 8).map_or(0, |b| u64::from_le_bytes(b.try_into().unwrap()))
}
/// Makes the last four bytes the CRC-32 of those before.
pub fn seal(bytes: &mut [u8]) {
    if let Some(at) = bytes.len().checked_sub(4) {
        let crc = crc32(&bytes[..at]).to_le_bytes();
        bytes[at..].copy_from_slice(&crc);
    }
}
/// Where the fields of a manifest stand, by its own counts.
#[derive(Clone, Copy)]
pub struct Layout {
    pub table: usize,
    pub segments: usize,
    pub entries: usize,
    pub rows: usize,
}
impl Written {
    /// The CRC-32 stored at the end of the manifest.
    pub fn stored_crc(&self) -> u32 {
        u32_at(&self.manifest, self.manifest.len().saturating_sub(4))
    }
    pub fn layout(&self) -> Layout {
        let model = u32_at(&self.manifest, 45) as usize;
        let segments = u32_at(&self.manifest, 49 + model) as usize;
        let table = 61 + model;
        Layout { table, segments, entries: table + 12 * segments, rows: u64_at(&self.manifest, 53 + model) as usize }
    }
    /// Start and length of each segment.
    pub fn parts(&self) -> Vec<(usize, usize)> {
        let layout = self.layout();
        let mut start = 0;
        (0..layout.segments)
            .map(|n| {
                let length = u64_at(&self.manifest, layout.table + 12 * n) as usize;
                start += length;
                (start - length, length)
            })
            .collect()
    }
    /// Start of a row's record in the segments.
    pub fn record(&self, row: usize) -> usize {
        let at = self.layout().entries + 20 * row;
        self.parts()[u32_at(&self.manifest, at + 8) as usize].0 + u32_at(&self.manifest, at + 12) as usize
    }
    /// Gives each segment, and the manifest, the CRC-32 of what they hold now.
    pub fn mend(&mut self) {
        let table = self.layout().table;
        for (n, (start, length)) in self.parts().into_iter().enumerate() {
            let Some(part) = self.segments.get_mut(start..start + length) else { return };
            seal(part);
            let crc: [u8; 4] = part[length - 4..].try_into().unwrap();
            self.manifest[table + 12 * n + 8..][..4].copy_from_slice(&crc);
        }
        seal(&mut self.manifest);
    }
}
