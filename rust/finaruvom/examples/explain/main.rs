//! `explain [--delay N] [--fee N] [--dates LIST] JOURNAL` tells a journal in words: for each
//! command a line with what it is, its channel, whether it was accepted, what it paid and, of a
//! closing, its deadline; at last the channel that is due next, with what it holds: among equal
//! deadlines the one with the larger sum is first.
//!
//! The journal is the id of a book, 16 bytes, and its commands one after the other. It does not say
//! with what its book was opened: without options that is the plain opening. The list has dates as
//! 20261225, with a comma between two; `-` is the empty one, with which Saturdays and Sundays alone
//! are shut.

mod moment;
mod options;
mod story;
#[cfg(test)]
mod tests;

use options::Options;
use std::error::Error;
use std::ffi::OsString;
use std::io::{self, Write};
use std::process::ExitCode;
use std::{env, fs};

fn main() -> ExitCode {
    match run(env::args_os().skip(1), &mut io::stdout().lock()) {
        Ok(()) => ExitCode::SUCCESS,
        Err(error) => {
            eprintln!("explain: {error}");
            ExitCode::FAILURE
        }
    }
}

/// Tells the journal that the arguments name.
fn run(
    arguments: impl Iterator<Item = OsString>,
    out: &mut impl Write,
) -> Result<(), Box<dyn Error>> {
    let options = Options::parse(arguments)?;
    let name = options.journal.display();
    let journal = fs::read(&options.journal).map_err(|error| format!("{name}: {error}"))?;
    story::tell(&journal, &options, out)?;
    Ok(out.flush()?)
}
