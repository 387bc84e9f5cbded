//! What `list` and `agree` share: their options, and the way to the rows and the query.
#![forbid(unsafe_code)]
use crate::{
    args::{Args, Spec},
    error::{Error, Refusal},
    ffi::{Call, Rows},
    input::{self, Query},
    json,
    library::{self, Library},
    progress::Progress,
    refusal, rows,
};
use std::io::{self, BufWriter, Write};

pub const SPEC: Spec = Spec {
    arguments: &["LIBRARY"],
    optional: false,
    flags: &["--resident", "--plain", "--json"],
    values: &[
        "--query",
        "--query-f32",
        "--query-text",
        "--numbers",
        "-k",
        "--limit",
        "--cache",
        "--ids",
        "--ids-binary",
        "--platform",
        "--root",
    ],
};

const DEFAULT_K: usize = 10;
const DEFAULT_LIMIT: usize = 1000;

#[derive(Clone, Copy, PartialEq, Eq)]
pub enum Form {
    Table,
    Plain,
    Json,
}

pub struct Search {
    pub library: Library,
    pub rows: Rows,
    /// Words for where the rows are from.
    pub origin: String,
    pub progress: Progress,
    query: Query,
    ids: Option<Vec<u64>>,
    k: usize,
    limit: usize,
}

impl Search {
    /// Reads the command line, the query and the ids, then the library and its rows.
    fn open(args: &Args) -> Result<Self, Error> {
        args.one_of(&["--cache", "--resident"])?;
        let query = Query::read(args)?;
        let ids = input::ids(args)?;
        let k = args.number("-k")?.unwrap_or(DEFAULT_K);
        let limit = args.number("--limit")?.unwrap_or(DEFAULT_LIMIT.max(k));
        let progress = Progress::new();
        let mut library = library::open(args.argument(0), &progress)?;
        query.tell_guess(library.head.dimensions);
        let (rows, origin) = rows::of(args, &mut library, &progress)?;
        library.scratch.release();
        Ok(Self { library, rows, origin, progress, query, ids, k, limit })
    }
    pub fn call(&self) -> Call<'_> {
        Call {
            manifest: &self.library.manifest,
            segments: &self.library.segments,
            query: &self.query.numbers,
            wanted: self.ids.as_deref(),
            k: self.k,
            limit: self.limit,
        }
    }
}

/// Opens a search, has `find` find its answer, and `tell` write it to standard output; a refusal is told there too in the forms for programs.
pub fn run<T>(
    args: &Args,
    find: fn(&Search) -> Result<T, Error>,
    tell: fn(Form, &Search, &T, &mut dyn Write) -> io::Result<()>,
) -> Result<(), Error> {
    args.one_of(&["--plain", "--json"])?;
    let form = match (args.has("--plain"), args.has("--json")) {
        (true, _) => Form::Plain,
        (_, true) => Form::Json,
        _ => Form::Table,
    };
    let mut out = BufWriter::new(io::stdout().lock());
    match Search::open(args).and_then(|search| find(&search).map(|found| (search, found))) {
        Ok((mut search, found)) => {
            search.progress.end();
            tell(form, &search, &found, &mut out).and_then(|()| out.flush()).map_err(|error| Error::output(&error))
        }
        Err(Error::Refused(refused, file)) => {
            write!(out, "{}", told(form, refused)).and_then(|()| out.flush()).map_err(|error| Error::output(&error))?;
            Err(Error::Refused(refused, file))
        }
        Err(error) => Err(error),
    }
}

/// What standard output says of a refusal: document 01's line, an object, or nothing.
fn told(form: Form, Refusal { number, place }: Refusal) -> String {
    match form {
        Form::Table => String::new(),
        Form::Plain => format!("refused {number} at {place}\n"),
        Form::Json => {
            let words = json::string(refusal::line(number));
            format!("{{\"refused\":{{\"number\":{number},\"place\":{place},\"text\":{words}}}}}\n")
        }
    }
}
