//! `pack`: writes a library of the strokes in a CSV file.
//!
//! The records go to SEGMENTS in the order of the file, so that only the manifest's entries are kept in memory; those are sorted by id.
#![forbid(unsafe_code)]
use crate::{
    args::{self, Args, Spec},
    bounds::{MAX_DIMENSIONS, MAX_METADATA_BYTES, MAX_MODEL_BYTES, MAX_ROWS, MAX_SEGMENT_BYTES, MAX_SEGMENTS},
    check,
    crc32::{self, Crc32},
    csv::{Fields, Problem, Records},
    error::Error,
    files::{self, Temporary},
    input, library,
    progress::Progress,
    text,
};
use std::{
    fs::{self, File},
    io::{BufReader, BufWriter, Write},
    path::Path,
};

pub const SPEC: Spec = Spec {
    arguments: &["STROKES.csv", "LIBRARY"],
    optional: false,
    flags: &["--header"],
    values: &["--metric", "--model", "--generation", "--sequence"],
};

/// The configuration of vecnook's `Config::new`: M, efConstruction and seed. A search does not use them.
const M: u32 = 16;
const EF_CONSTRUCTION: u32 = 200;
const SEED: u64 = 42;

#[derive(Clone, Copy, PartialEq, Eq)]
enum Metric {
    SquaredL2 = 0,
    Cosine = 1,
    InnerProduct = 2,
}

struct Plan<'a> {
    metric: Metric,
    model: &'a str,
    generation: u64,
    sequence: u64,
}

impl<'a> Plan<'a> {
    fn read(args: &'a Args) -> Result<Self, Error> {
        let usage = |words: &str| Error::Usage(words.into());
        let metric = match args.text("--metric")? {
            Some("l2") => Metric::SquaredL2,
            Some("cosine") => Metric::Cosine,
            Some("ip") => Metric::InnerProduct,
            _ => return Err(usage("--metric is l2, cosine or ip")),
        };
        let model = args.text("--model")?.ok_or_else(|| usage("--model is not given"))?;
        if !(1..=MAX_MODEL_BYTES).contains(&model.len()) || model.contains('\0') {
            return Err(usage("--model has 1 to 512 bytes, none of them NUL"));
        }
        let generation = args.number("--generation")?.unwrap_or(1);
        if generation == 0 {
            return Err(usage("--generation is 1 or more"));
        }
        Ok(Self { metric, model, generation, sequence: args.number("--sequence")?.unwrap_or(0) })
    }
}

pub fn run(args: &Args) -> Result<(), Error> {
    let plan = Plan::read(args)?;
    let (source, target) = (args.argument(0), args.argument(1));
    if files::exists(target)? {
        return Err(Error::file(target, "is there already"));
    }
    let progress = Progress::new();
    let input = files::open(source)?;
    let (temporary, ()) = Temporary::new(target, "tmp", |path| fs::create_dir(path))?;
    let folder = temporary.path();
    let (manifest, segments) = (folder.join("MANIFEST"), folder.join("SEGMENTS"));
    progress.stage(&format!("reading {}", text::path(source)), files::length(source, &input)?);
    let mut writer = Writer::new(&segments, plan.metric)?;
    read_strokes(source, input, args.has("--header"), &mut writer, &progress)?;
    let bytes = writer.finish(source)?.manifest(source, &plan)?;
    files::write_new(&manifest, &bytes, &progress)?;
    drop(bytes);
    files::sync_folder(folder)?;
    let words = check::accepted(target, &library::open(folder, &progress)?);
    temporary.rename()?;
    drop(progress);
    text::print(&words)
}

fn at_line(source: &Path, line: u64, problem: impl std::fmt::Display) -> Error {
    Error::file(source, format!("line {line}: {problem}"))
}

fn read_strokes(
    source: &Path,
    input: File,
    header: bool,
    writer: &mut Writer,
    progress: &Progress,
) -> Result<(), Error> {
    let mut records = Records::new(BufReader::with_capacity(1 << 20, input));
    let mut skip = header;
    let mut numbers = Vec::new();
    loop {
        let (line, record, bytes) = match records.next() {
            Ok(Some(found)) => found,
            Ok(None) => return Ok(()),
            Err(Problem::Io(error)) => return Err(Error::io(source, &error)),
            Err(Problem::Record(line, problem)) => return Err(at_line(source, line, problem)),
        };
        progress.done(bytes as u64);
        if std::mem::take(&mut skip) {
            continue;
        }
        writer.stroke(line, record, &mut numbers).map_err(|problem| match problem {
            Wrong::Stroke(problem) => at_line(source, line, problem),
            Wrong::Output(error) => error,
        })?;
    }
}

/// Why a stroke was not written.
enum Wrong {
    Stroke(String),
    Output(Error),
}
impl From<&str> for Wrong {
    fn from(words: &str) -> Self {
        Self::Stroke(words.into())
    }
}
impl From<String> for Wrong {
    fn from(words: String) -> Self {
        Self::Stroke(words)
    }
}

struct Entry {
    id: u64,
    segment: u32,
    offset: u32,
    metadata: u32,
    line: u64,
}

/// SEGMENTS as it is written, and what the manifest will say of it.
struct Writer<'a> {
    path: &'a Path,
    file: BufWriter<File>,
    metric: Metric,
    dimensions: usize,
    /// Length and CRC-32 of each whole segment.
    segments: Vec<(u64, u32)>,
    entries: Vec<Entry>,
    crc: Crc32,
    used: usize,
    record: Vec<u8>,
}

impl<'a> Writer<'a> {
    fn new(path: &'a Path, metric: Metric) -> Result<Self, Error> {
        let file = files::create(path).map_err(|error| Error::io(path, &error))?;
        Ok(Self {
            path,
            file: BufWriter::with_capacity(1 << 20, file),
            metric,
            dimensions: 0,
            segments: Vec::new(),
            entries: Vec::new(),
            crc: Crc32::new(),
            used: 0,
            record: Vec::new(),
        })
    }
    /// Writes the record of one stroke: id, metadata, numbers.
    fn stroke(&mut self, line: u64, record: &str, numbers: &mut Vec<f32>) -> Result<(), Wrong> {
        let mut fields = Fields::of(record);
        let id = fields.next().unwrap_or(Ok("".into()))?;
        let id: u64 = args::number(id.trim()).map_err(|problem| match self.entries.is_empty() {
            true => format!("the id `{}` {problem} (--header passes over a first line of names)", text::safe(&id)),
            false => format!("the id `{}` {problem}", text::safe(&id)),
        })?;
        let metadata = fields.next().ok_or("has an id alone; a stroke is id, metadata, numbers")??;
        if metadata.len() > MAX_METADATA_BYTES {
            return Err(format!("the metadata has {} bytes, over 16,384", metadata.len()).into());
        }
        numbers.clear();
        for field in fields {
            let number = input::float(field?.trim());
            numbers.push(number.map_err(|problem| format!("number {}: {problem}", numbers.len() + 1))?);
        }
        if self.entries.is_empty() {
            self.dimensions = numbers.len();
        }
        if !(1..=MAX_DIMENSIONS).contains(&numbers.len()) {
            return Err(format!("has {} numbers; a stroke has 1 to 4,096", numbers.len()).into());
        }
        if numbers.len() != self.dimensions {
            return Err(format!("has {} numbers, the strokes before it {}", numbers.len(), self.dimensions).into());
        }
        if self.metric == Metric::Cosine && numbers.iter().all(|&number| number == 0.0) {
            return Err("has only zeros, which cosine does not take".into());
        }
        if self.entries.len() == MAX_ROWS {
            return Err("is one stroke too many: a library has at most 1,000,000".into());
        }
        self.record.clear();
        self.record.extend(id.to_le_bytes());
        self.record.extend((metadata.len() as u32).to_le_bytes());
        self.record.extend(numbers.iter().flat_map(|number| number.to_le_bytes()));
        self.record.extend(metadata.as_bytes());
        if self.used > 0 && self.used + self.record.len() + 4 > MAX_SEGMENT_BYTES {
            self.end_segment().map_err(Wrong::Output)?;
        }
        if self.segments.len() == MAX_SEGMENTS {
            return Err("goes beyond 1,024 segments of 67,108,864 bytes, the most of a library".into());
        }
        self.entries.push(Entry {
            id,
            segment: self.segments.len() as u32,
            offset: self.used as u32,
            metadata: metadata.len() as u32,
            line,
        });
        self.crc.update(&self.record);
        self.used += self.record.len();
        self.file.write_all(&self.record).map_err(|error| Wrong::Output(Error::io(self.path, &error)))
    }
    /// Writes the CRC-32 of a segment's records behind them.
    fn end_segment(&mut self) -> Result<(), Error> {
        let crc = std::mem::replace(&mut self.crc, Crc32::new()).finish();
        self.file.write_all(&crc.to_le_bytes()).map_err(|error| Error::io(self.path, &error))?;
        self.segments.push((self.used as u64 + 4, crc));
        self.used = 0;
        Ok(())
    }
    fn finish(mut self, source: &Path) -> Result<Written, Error> {
        if self.entries.is_empty() {
            return Err(Error::file(source, "has no strokes"));
        }
        self.end_segment()?;
        let file = self.file.into_inner().map_err(|error| Error::io(self.path, error.error()))?;
        files::sync(self.path, &file)?;
        Ok(Written { dimensions: self.dimensions, segments: self.segments, entries: self.entries })
    }
}

struct Written {
    dimensions: usize,
    segments: Vec<(u64, u32)>,
    entries: Vec<Entry>,
}

impl Written {
    /// The manifest, field by field as document 01 has it.
    fn manifest(mut self, source: &Path, plan: &Plan) -> Result<Vec<u8>, Error> {
        self.entries.sort_unstable_by_key(|entry| (entry.id, entry.line));
        for pair in self.entries.windows(2) {
            if let [first, second] = pair
                && first.id == second.id
            {
                let words = format!("the id {} is also that of line {}", first.id, first.line);
                return Err(at_line(source, second.line, words));
            }
        }
        let mut out = files::with_room(66 + plan.model.len() + 12 * self.segments.len() + 20 * self.entries.len())?;
        out.extend(b"VECGEN01");
        out.extend(plan.generation.to_le_bytes());
        out.extend(plan.sequence.to_le_bytes());
        for number in [self.dimensions as u32, M, EF_CONSTRUCTION] {
            out.extend(number.to_le_bytes());
        }
        out.extend(SEED.to_le_bytes());
        out.push(plan.metric as u8);
        out.extend((plan.model.len() as u32).to_le_bytes());
        out.extend(plan.model.as_bytes());
        out.extend((self.segments.len() as u32).to_le_bytes());
        out.extend((self.entries.len() as u64).to_le_bytes());
        for (length, crc) in &self.segments {
            out.extend(length.to_le_bytes());
            out.extend(crc.to_le_bytes());
        }
        for entry in &self.entries {
            out.extend(entry.id.to_le_bytes());
            for number in [entry.segment, entry.offset, entry.metadata] {
                out.extend(number.to_le_bytes());
            }
        }
        out.extend(crc32::of(&out).to_le_bytes());
        Ok(out)
    }
}
