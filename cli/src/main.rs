//! pivatsohy: checks, prepares, lists and packs libraries of strokes by the proved archive.
//!
//! A command answers with exit status 0, 1 where the archive refuses, 2 for bad usage or a file that cannot be read or written.
#![deny(unsafe_code)]
#![cfg_attr(not(test), deny(clippy::unwrap_used, clippy::expect_used, clippy::panic, clippy::indexing_slicing))]

mod agree;
mod args;
mod bounds;
mod check;
mod crc32;
mod csv;
mod error;
mod explain;
mod ffi;
mod files;
mod help;
mod input;
mod json;
mod library;
mod list;
mod pack;
mod prepare;
mod progress;
mod refusal;
mod rows;
mod search;
mod text;

use args::{Args, Spec};
use error::Error;
use std::{ffi::OsString, process::ExitCode};

type Run = fn(&Args) -> Result<(), Error>;

struct Command {
    name: &'static str,
    help: &'static str,
    spec: Spec,
    run: Run,
}

const COMMANDS: [Command; 6] = [
    Command { name: "check", help: help::CHECK, spec: check::SPEC, run: check::run },
    Command { name: "prepare", help: help::PREPARE, spec: prepare::SPEC, run: prepare::run },
    Command { name: "list", help: help::LIST, spec: search::SPEC, run: list::run },
    Command { name: "agree", help: help::AGREE, spec: search::SPEC, run: agree::run },
    Command { name: "pack", help: help::PACK, spec: pack::SPEC, run: pack::run },
    Command { name: "explain", help: help::EXPLAIN, spec: explain::SPEC, run: explain::run },
];

fn main() -> ExitCode {
    match start(std::env::args_os().skip(1)) {
        Ok(()) => ExitCode::SUCCESS,
        Err(error) => {
            error.tell();
            ExitCode::from(error.status())
        }
    }
}

fn start(mut given: impl Iterator<Item = OsString>) -> Result<(), Error> {
    let Some(name) = given.next() else { return Err(Error::Usage("no command is given".into())) };
    match name.to_str() {
        Some("--help" | "-h" | "help") => match given.next() {
            None => text::print(help::PROGRAM),
            Some(name) => text::print(command(&name)?.help),
        },
        Some("--version" | "-V") => text::print(concat!("pivatsohy ", env!("CARGO_PKG_VERSION"), "\n")),
        _ => run(command(&name)?, given),
    }
}

fn command(name: &OsString) -> Result<&'static Command, Error> {
    COMMANDS
        .iter()
        .find(|command| name == command.name)
        .ok_or_else(|| Error::Usage(format!("there is no command `{}`", text::safe(&name.to_string_lossy()))))
}

fn run(command: &Command, given: impl Iterator<Item = OsString>) -> Result<(), Error> {
    let done = match Args::read(given, &command.spec) {
        Ok(Some(args)) => (command.run)(&args),
        Ok(None) => text::print(command.help),
        Err(error) => Err(error),
    };
    done.map_err(|error| error.of(command.name))
}
