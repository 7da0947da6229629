//! `differential [--seed N] [--seconds N | --cases N] [--part NAME]`: compares and prints a tally.
use differential::{run, Options};
use std::process::ExitCode;

fn main() -> ExitCode {
    match Options::parse(std::env::args().skip(1)).and_then(|options| run(&options)) {
        Ok(tally) => {
            println!("{tally}library and oracle agree");
            ExitCode::SUCCESS
        }
        Err(text) => {
            eprintln!("{text}");
            ExitCode::FAILURE
        }
    }
}
