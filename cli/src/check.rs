//! `check`: whether a library is accepted, and what it is.
#![forbid(unsafe_code)]
use crate::{
    args::{Args, Spec},
    error::Error,
    library::{self, Kind, Library},
    progress::Progress,
    text,
};
use std::path::Path;

pub const SPEC: Spec = Spec { arguments: &["LIBRARY"], optional: false, flags: &[], values: &[] };

pub fn run(args: &Args) -> Result<(), Error> {
    let progress = Progress::new();
    let library = library::open(args.argument(0), &progress)?;
    drop(progress);
    text::print(&accepted(args.argument(0), &library))
}

/// What was accepted, for people, of the library that has this name.
pub fn accepted(name: &Path, library: &Library) -> String {
    let head = &library.head;
    let kind = match library.kind {
        Kind::Folder => "a folder with MANIFEST and SEGMENTS",
        Kind::Store => "a vecnook store",
    };
    let bytes = (library.manifest.len() + library.segments.len()) as u64;
    format!(
        "{}: accepted\n\
         library     {kind}, {}\n\
         generation  {}\n\
         sequence    {}\n\
         strokes     {}\n\
         dimensions  {}\n\
         metric      {}\n\
         model       {}\n\
         segments    {}\n",
        text::path(name),
        text::counted(bytes, "byte"),
        head.generation,
        head.sequence,
        text::grouped(head.rows as u64),
        text::grouped(head.dimensions as u64),
        library.metric(),
        text::safe(&String::from_utf8_lossy(&head.model)),
        text::grouped(head.segments as u64)
    )
}
