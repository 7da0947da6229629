//! One book in the library and the same in the oracle.

mod journal;
mod opening;

use crate::bridge::{forgetting, to_answer, to_oracle, to_paid, to_raw};
use crate::kinds::{days, fees, kind, leaves};
use crate::tally::Tally;
use finaruvom::{raw, Answer, Book, Refusal};

/// Nothing, or what differs.
pub type Outcome = Result<(), String>;

/// Two books that must stay equal.
#[derive(Clone)]
pub struct Pair {
    pub library: Book,
    pub oracle: oracle::Book,
}

impl Pair {
    /// Both with these values.
    pub fn new(raw: raw::Book) -> Pair {
        Pair {
            oracle: to_oracle(&raw),
            library: Book::from_raw(raw),
        }
    }

    /// Both fresh, by the plain opening.
    pub fn fresh(id: [u8; 16]) -> Result<Pair, String> {
        let library = Book::open(&id).map_err(|refusal| refusal.to_string())?;
        let oracle = oracle::Book::fresh(id);
        let pair = Pair { library, oracle };
        pair.agree(&forgetting(pair.library.as_raw()))?;
        Ok(pair)
    }

    /// Gives both a command, and the answer.
    pub fn apply(&mut self, command: &[u8], tally: &mut Tally) -> Result<oracle::Answer, String> {
        let former = self.library.as_raw().clone();
        let before = status(&self.oracle, command);
        let library = self.library.apply(command);
        let oracle = oracle::apply(&mut self.oracle, command);
        tally.answer(command, oracle.refusal);
        if oracle.refusal != 0 {
            tally.refused(command, &oracle::noes(&self.oracle, command));
        }
        if let Some(kind) = kind(&self.oracle, command, oracle.refusal) {
            tally.compared(kind);
        }
        leaves::kinds(&self.oracle, command, oracle.refusal).for_each(|kind| tally.compared(kind));
        fees::kinds(&self.oracle, command, &oracle).for_each(|kind| tally.compared(kind));
        days::kinds(&self.oracle, command, oracle.refusal).for_each(|kind| tally.compared(kind));
        tally.charged(&oracle, self.oracle.rate);
        if let (0, Some(before), Some(after)) =
            (oracle.refusal, before, status(&self.oracle, command))
        {
            tally.moved(command, before, after);
        }
        same_answer(&library, &oracle)
            .and_then(|()| self.agree(&former))
            .map_err(|text| format!("{text}\ncommand: {}", hex(command)))?;
        Ok(oracle)
    }

    /// Whether all bytes of the books are equal, the library's book having been this one before.
    pub fn agree(&self, before: &raw::Book) -> Outcome {
        let oracle = Book::from_raw(to_raw(&self.oracle, before));
        if self.library.as_bytes() == oracle.as_bytes() {
            return Ok(());
        }
        let (library, oracle) = (self.library.as_raw(), oracle.as_raw());
        same("mark", &library.mark, &oracle.mark)?;
        same("id", &library.id, &oracle.id)?;
        same("setup", &library.setup, &oracle.setup)?;
        same("clock", &library.clock, &oracle.clock)?;
        for (n, channel) in library.channels.iter().enumerate() {
            same(&format!("channel {n}"), channel, &oracle.channels[n])?;
        }
        Err("equal values that are not equal bytes".to_string())
    }

    /// Whether the stored bytes give the book back, or are refused where it is unsound.
    pub fn stored(&self, tally: &mut Tally) -> Outcome {
        let stored = self.library.as_bytes();
        let (what, expected) = match self.oracle.sound() {
            true => ("books restored", Ok(self.library.clone())),
            false => ("books not restored", Err(Refusal::Unsound)),
        };
        tally.compared(what);
        same("book restored", &Book::from_bytes(stored), &expected)
    }
}

/// Whether an answer is the oracle's, as it is and as the wrapper tells it.
fn same_answer(library: &Answer, oracle: &oracle::Answer) -> Outcome {
    let paid = to_paid(oracle);
    same("answer", library.as_raw(), &to_answer(oracle))?;
    same("paid", &library.paid(), &paid)?;
    same("refused", &library.refused(), &paid.err())?;
    same("steps", &library.steps(), &oracle.steps)
}

/// The status of the channel that a command names.
fn status(book: &oracle::Book, command: &[u8]) -> Option<u8> {
    match command {
        [2..=10, high, low, ..] => {
            let n = u16::from_be_bytes([*high, *low]);
            book.channels
                .get(usize::from(n))
                .map(|channel| channel.status)
        }
        _ => None,
    }
}

/// Whether library and oracle say the same.
pub fn same<T: PartialEq + std::fmt::Debug>(what: &str, library: &T, oracle: &T) -> Outcome {
    match library == oracle {
        true => Ok(()),
        false => Err(format!("{what}\nlibrary: {library:?}\noracle:  {oracle:?}")),
    }
}

/// Bytes in hexadecimal.
pub fn hex(bytes: &[u8]) -> String {
    bytes.iter().map(|byte| format!("{byte:02x}")).collect()
}
