//! `list`: the strokes nearest to the query.
#![forbid(unsafe_code)]
use crate::{
    args::Args,
    bounds::MAX_LIMIT,
    error::Error,
    ffi::{Found, Report},
    json,
    search::{self, Form, Search},
    text,
};
use std::{
    borrow::Cow,
    io::{self, Write},
};

pub fn run(args: &Args) -> Result<(), Error> {
    search::run(args, find, |form, search, found, out| match form {
        Form::Table => table(search, found, out),
        Form::Plain => plain(found, out),
        Form::Json => object(search, found, out),
    })
}

pub fn find(search: &Search) -> Result<Found, Error> {
    search.progress.stage("searching", 0);
    search.rows.search(&search.call())
}

/// One place of the list, as it is told.
struct Line<'a> {
    place: usize,
    id: u64,
    distance: f64,
    row: u64,
    metadata: Cow<'a, str>,
}
fn places<'a>(search: &'a Search, found: &'a Found) -> impl Iterator<Item = Line<'a>> {
    let columns = found.ids.iter().zip(&found.distances).zip(&found.rows).zip(&found.metadata);
    columns.enumerate().map(|(at, (((&id, &distance), &row), range))| {
        let metadata = search.library.segments.get(range.clone()).unwrap_or_default();
        Line { place: at + 1, id, distance, row, metadata: String::from_utf8_lossy(metadata) }
    })
}

fn bits(distance: f64) -> String {
    format!("{:016x}", distance.to_bits())
}

/// What the list program prints, to the letter.
fn plain(found: &Found, out: &mut dyn Write) -> io::Result<()> {
    let Report { generation, sequence, eligible, measured, complete, approximate, .. } = found.report;
    writeln!(
        out,
        "generation {generation} sequence {sequence} eligible {eligible} measured {measured} complete {complete} \
         approximate {approximate}"
    )?;
    for (place, ((id, &distance), row)) in found.ids.iter().zip(&found.distances).zip(&found.rows).enumerate() {
        writeln!(out, "{} {id} {} {row}", place + 1, bits(distance))?;
    }
    Ok(())
}

/// One object. Ids, generation and sequence are strings, since JSON's readers round numbers beyond 2^53.
fn object(search: &Search, found: &Found, out: &mut dyn Write) -> io::Result<()> {
    let report = &found.report;
    write!(
        out,
        "{{\"generation\":\"{}\",\"sequence\":\"{}\",\"eligible\":{},\"measured\":{},\"complete\":{},\"approximate\":{},\
         \"places\":[",
        report.generation,
        report.sequence,
        report.eligible,
        report.measured,
        report.complete != 0,
        report.approximate != 0
    )?;
    for Line { place, id, distance, row, metadata } in places(search, found) {
        write!(
            out,
            "{}{{\"place\":{place},\"id\":\"{id}\",\"distance\":{},\"bits\":\"{}\",\"row\":{row},\"metadata\":{}}}",
            if place == 1 { "" } else { "," },
            json::float(distance),
            bits(distance),
            json::string(&metadata)
        )?;
    }
    writeln!(out, "]}}")
}

/// The report in words, for people.
pub fn words(search: &Search, report: &Report) -> String {
    let exact = if report.approximate != 0 && report.eligible <= MAX_LIMIT as u64 {
        format!("The list may be another than the exact one; from --limit {} on it is exact.", report.eligible)
    } else if report.approximate != 0 {
        "The list may be another than the exact one; `pivatsohy agree` counts the places in which it is the same."
            .into()
    } else if search.call().k == 0 {
        "No place was asked for.".into()
    } else {
        "The list is exact: every eligible stroke was measured.".into()
    };
    format!(
        "Generation {}, sequence {}, {}: {} eligible, {} measured, by {}.\n{exact}\n",
        report.generation,
        report.sequence,
        search.library.metric(),
        text::counted(report.eligible, "stroke"),
        text::grouped(report.measured),
        search.origin
    )
}

fn table(search: &Search, found: &Found, out: &mut dyn Write) -> io::Result<()> {
    write!(out, "{}", words(search, &found.report))?;
    if found.ids.is_empty() {
        return Ok(());
    }
    writeln!(out)?;
    let width = |name: &str, column: &mut dyn Iterator<Item = usize>| column.fold(name.len(), usize::max);
    let digits = |number: &u64| number.to_string().len();
    let shown = |distance: f64| format!("{distance:?}");
    let place = found.ids.len().to_string().len().max("place".len());
    let id = width("id", &mut found.ids.iter().map(digits));
    let distance = width("distance", &mut found.distances.iter().map(|&distance| shown(distance).len()));
    let row = width("row", &mut found.rows.iter().map(digits));
    let mut line = |words: [&str; 6]| {
        let [a, b, c, d, e, f] = words;
        let line = format!("{a:>place$}  {b:>id$}  {c:>distance$}  {d:<16}  {e:>row$}  {f}");
        writeln!(out, "{}", line.trim_end())
    };
    line(["place", "id", "distance", "bits", "row", "metadata"])?;
    for Line { place, id, distance, row, metadata } in places(search, found) {
        let (place, id, row, metadata) = (place.to_string(), id.to_string(), row.to_string(), text::safe(&metadata));
        line([&place, &id, &shown(distance), &bits(distance), &row, &metadata])?;
    }
    Ok(())
}
