//! The command line.
use finaruvom::{Book, Date, Refusal, Settings};
use std::ffi::OsString;
use std::path::PathBuf;

const USAGE: &str = "explain [--delay N] [--fee N] [--dates LIST] JOURNAL";

/// What was asked for. What is not given is as in the plain opening.
#[derive(Default)]
pub struct Options {
    pub journal: PathBuf,
    delay: Option<u32>,
    fee: Option<u32>,
    dates: Option<Vec<Date>>,
}

impl Options {
    /// Reads the arguments; one of them is the journal.
    pub fn parse(mut arguments: impl Iterator<Item = OsString>) -> Result<Options, String> {
        let mut options = Options::default();
        let mut journal = None;
        while let Some(argument) = arguments.next() {
            let name = argument.to_str().filter(|name| name.starts_with("--"));
            let Some(name) = name else {
                if journal.replace(argument).is_some() {
                    return Err(USAGE.to_string());
                }
                continue;
            };
            let value = arguments.next().and_then(|value| value.into_string().ok());
            options.set(name, &value.ok_or(USAGE)?)?;
        }
        options.journal = journal.ok_or(USAGE)?.into();
        Ok(options)
    }

    fn set(&mut self, name: &str, value: &str) -> Result<(), String> {
        match name {
            "--delay" => self.delay = Some(number(value)?),
            "--fee" => self.fee = Some(number(value)?),
            "--dates" => self.dates = Some(dates(value)?),
            _ => return Err(USAGE.to_string()),
        }
        Ok(())
    }

    /// The book that is opened so.
    pub fn open(&self, id: &[u8]) -> Result<Book, Refusal> {
        let mut settings = Settings::default();
        settings.delay = self.delay.unwrap_or(settings.delay);
        settings.fee = self.fee.unwrap_or(settings.fee);
        settings.dates = self.dates.as_deref();
        Book::open_with(id, &settings)
    }
}

fn number(text: &str) -> Result<u32, String> {
    text.parse().map_err(|_| format!("'{text}' is no number"))
}

/// The dates of a list; nothing and a dash stand for an empty one.
fn dates(list: &str) -> Result<Vec<Date>, String> {
    match list {
        "" | "-" => Ok(Vec::new()),
        _ => list
            .split(',')
            .map(|item| Ok(number(item)?.into()))
            .collect(),
    }
}
