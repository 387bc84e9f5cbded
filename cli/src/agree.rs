//! `agree`: in how many places the list holds what the exact list holds there.
#![forbid(unsafe_code)]
use crate::{
    args::Args,
    error::Error,
    list,
    search::{self, Form},
    text,
};

pub fn run(args: &Args) -> Result<(), Error> {
    search::run(
        args,
        |search| {
            let report = list::find(search)?.report;
            search.progress.stage("measuring every eligible stroke", 0);
            Ok((report, search.rows.agreement(&search.call())?))
        },
        |form, search, (report, agreement), out| match form {
            Form::Plain => writeln!(out, "agreement {agreement} of {}", report.count),
            Form::Json => writeln!(out, "{{\"agreement\":{agreement},\"places\":{}}}", report.count),
            Form::Table => writeln!(
                out,
                "{}The list and the exact list hold the same id in {} of {}.",
                list::words(search, report),
                text::grouped(*agreement),
                text::counted(report.count, "place")
            ),
        },
    )
}
