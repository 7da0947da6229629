//! What was compared, and which refusals came up.
use crate::kinds::{bank, days, due, fees, leaves, lists, openings, signers, KINDS};
use oracle::{Answer, HIGHEST_RATE};
use std::collections::{BTreeMap, BTreeSet};
use std::fmt;

/// The answers that each first byte can get, 00 standing for none and for one that is no command.
const REACHABLE: [(u8, &[u8]); 11] = [
    (0x00, &[1, 99]),
    (0x01, &[0, 2, 3, 99]),
    (0x02, &[0, 2, 4, 5, 6, 7, 8, 99]),
    (0x03, &[0, 2, 4, 5, 8, 99]),
    (0x04, &[0, 2, 4, 5, 8, 99]),
    (0x05, &[0, 2, 4, 5, 12, 99]),
    (0x06, &[0, 2, 4, 5, 8, 11, 12, 99]),
    (0x07, &[0, 2, 4, 5, 8, 9, 11, 12, 99]),
    (0x08, &[0, 2, 4, 5, 11, 99]),
    (0x09, &[0, 2, 4, 5, 9, 10, 11, 16, 99]),
    (0x0a, &[0, 2, 4, 5, 9, 99]),
];

/// Accepted commands by the channel's status before and after.
const MOVES: [(u8, u8, u8); 13] = [
    (0x02, 0, 1),
    (0x02, 0, 2),
    (0x03, 1, 2),
    (0x03, 1, 3),
    (0x04, 2, 3),
    (0x05, 2, 6),
    (0x06, 3, 6),
    (0x07, 3, 5),
    (0x07, 4, 5),
    (0x08, 3, 4),
    (0x09, 5, 6),
    (0x0a, 4, 6),
    (0x0a, 5, 6),
];

/// Every two of the checks 5 to 10 that can say no to one command.
const MEETINGS: [(u8, u8, u8); 15] = [
    (0x02, 5, 6),
    (0x02, 5, 7),
    (0x02, 5, 8),
    (0x02, 6, 7),
    (0x02, 6, 8),
    (0x02, 7, 8),
    (0x03, 5, 8),
    (0x04, 5, 8),
    (0x06, 5, 8),
    (0x07, 5, 8),
    (0x07, 8, 9),
    (0x09, 5, 9),
    (0x09, 5, 10),
    (0x09, 9, 10),
    (0x0a, 5, 9),
];

/// Numbers of the answers.
const REFUSALS: [u8; 15] = [0, 1, 2, 3, 4, 5, 6, 7, 8, 9, 10, 11, 12, 16, 99];

/// Counts of a whole run.
#[derive(Default)]
pub struct Tally {
    compared: BTreeMap<&'static str, u64>,
    answers: BTreeMap<(u8, u8), u64>,
    moves: BTreeMap<(u8, u8, u8), u64>,
    meetings: BTreeMap<(u8, u8, u8), u64>,
    rates: BTreeSet<u32>,
}

impl Tally {
    /// Counts something that was compared.
    pub fn compared(&mut self, what: &'static str) {
        *self.compared.entry(what).or_default() += 1;
    }

    /// Counts the answer to a command.
    pub fn answer(&mut self, command: &[u8], refusal: u8) {
        self.compared("commands");
        let row = row(command);
        *self.answers.entry((row, refusal)).or_default() += 1;
    }

    /// Counts an accepted command by the channel's status before and after.
    pub fn moved(&mut self, command: &[u8], before: u8, after: u8) {
        let place = (row(command), before, after);
        *self.moves.entry(place).or_default() += 1;
    }

    /// Counts a refused command by the first two of the checks 3 to 10 that say no to it.
    pub fn refused(&mut self, command: &[u8], noes: &[u8]) {
        if let [first, second, ..] = noes {
            let place = (row(command), *first, *second);
            *self.meetings.entry(place).or_default() += 1;
        }
    }

    /// Notes the rate of a book in which a merchant was paid.
    pub fn charged(&mut self, answer: &Answer, rate: u32) {
        if answer.merchant > 0 {
            self.rates.insert(rate);
        }
    }

    /// What could have come up and never did.
    pub fn missing(&self) -> Vec<String> {
        let answers = REACHABLE
            .iter()
            .flat_map(|(row, all)| all.iter().map(|one| (*row, *one)))
            .filter(|place| !self.answers.contains_key(place))
            .map(|(row, refusal)| format!("{row:02X} answered {refusal}"));
        let moves = MOVES
            .iter()
            .filter(|place| !self.moves.contains_key(place))
            .map(|(row, before, after)| format!("{row:02X} from status {before} to {after}"));
        let meetings = MEETINGS
            .iter()
            .filter(|place| !self.meetings.contains_key(place))
            .map(|(row, first, second)| format!("{row:02X} failing {first} and {second}"));
        let kinds = KINDS
            .into_iter()
            .chain(signers::names())
            .chain(leaves::names())
            .chain(bank::names())
            .chain(openings::names())
            .chain(lists::names())
            .chain(fees::names())
            .chain(days::names())
            .chain(due::names())
            .filter(|kind| !self.compared.contains_key(kind))
            .map(|kind| kind.to_string());
        let rates = (0..=HIGHEST_RATE)
            .filter(|rate| !self.rates.contains(rate))
            .map(|rate| format!("a merchant paid at a rate of {rate}"));
        let all = answers.chain(moves).chain(meetings).chain(kinds);
        all.chain(rates).collect()
    }

    /// Answers by first byte, moves and meetings.
    fn table(&self, f: &mut fmt::Formatter<'_>) -> fmt::Result {
        write!(f, "answers:")?;
        for refusal in REFUSALS {
            write!(f, "{refusal:>8}")?;
        }
        for (row, _) in REACHABLE {
            write!(f, "\n     {row:02X} ")?;
            for refusal in REFUSALS {
                match self.answers.get(&(row, refusal)) {
                    Some(count) => write!(f, "{count:>8}")?,
                    None => write!(f, "{:>8}", "-")?,
                }
            }
        }
        writeln!(f, "\naccepted, with the status before and after:")?;
        for ((row, before, after), count) in &self.moves {
            writeln!(f, "{count:>12} {row:02X} {before} > {after}")?;
        }
        writeln!(
            f,
            "refused, with the first two checks of 3 to 10 that say no:"
        )?;
        for ((row, first, second), count) in &self.meetings {
            writeln!(f, "{count:>12} {row:02X} {first} {second}")?;
        }
        Ok(())
    }
}

/// The first byte if it is a command, else 0.
fn row(command: &[u8]) -> u8 {
    match command.first() {
        Some(&first @ 0x01..=0x0a) => first,
        _ => 0,
    }
}

impl fmt::Display for Tally {
    fn fmt(&self, f: &mut fmt::Formatter<'_>) -> fmt::Result {
        for (what, count) in &self.compared {
            writeln!(f, "{count:>12} {what}")?;
        }
        match self.answers.is_empty() {
            true => Ok(()),
            false => self.table(f),
        }
    }
}
