//! The command line.
use std::time::Duration;

/// How to use the program.
pub const USAGE: &str = "differential [--seed N] [--seconds N | --cases N] [--part NAME]";

/// When a run ends.
#[derive(Clone, Copy)]
pub enum Limit {
    /// After this time, and some rounds.
    Time(Duration),
    /// After so many cases of each part, at least one.
    Cases(u64),
}

/// What was asked for.
pub struct Options {
    /// The seed of the first case; the next one has the next seed.
    pub seed: u64,
    /// When to end.
    pub limit: Limit,
    /// The only part to run.
    pub part: Option<String>,
}

impl Options {
    /// Reads the arguments.
    pub fn parse(arguments: impl Iterator<Item = String>) -> Result<Options, String> {
        let mut options = Options {
            seed: 1,
            limit: Limit::Time(Duration::from_secs(20)),
            part: None,
        };
        let mut arguments = arguments;
        while let Some(name) = arguments.next() {
            let value = arguments.next().ok_or(USAGE)?;
            let number = || value.parse::<u64>().map_err(|_| USAGE);
            match name.as_str() {
                "--seed" => options.seed = number()?,
                "--seconds" => options.limit = Limit::Time(Duration::from_secs(number()?)),
                "--cases" => options.limit = Limit::Cases(number()?),
                "--part" => options.part = Some(value),
                _ => return Err(USAGE.to_string()),
            }
        }
        Ok(options)
    }
}
