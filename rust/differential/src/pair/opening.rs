//! Openings of both books.
use super::{forgetting, same, Outcome, Pair};
use crate::fence::Fenced;
use crate::kinds::openings;
use crate::opening::{Given, Opening};
use crate::tally::Tally;
use finaruvom::{raw, Book, Refusal};
use std::mem::size_of;

/// Numbers that are lent where there is no list: none of them is a date.
const UNLOOKED: [u32; 3] = [u32::MAX, 0, 20_260_431];

impl Pair {
    /// Opens both, and gives the refusal, or 0.
    pub fn open(&mut self, id: &[u8], how: &Opening, tally: &mut Tally) -> Result<u8, String> {
        let before = self.library.as_raw().clone();
        let (library, oracle) = match how {
            Opening::Plain => (self.library.reopen(id), self.oracle.open(id)),
            Opening::With(given) => self.open_with(id, given),
        };
        let library = library.map_or_else(Refusal::number, |()| 0);
        let (kind, expected) = openings::kind(id, how);
        tally.compared(kind);
        openings::edge(how, oracle).for_each(|kind| tally.compared(kind));
        same(kind, &[library, oracle], &[expected; 2])?;
        match oracle {
            0 => self.agree(&forgetting(&before))?,
            _ => self.agree(&before)?,
        }
        if let Opening::With(given) = how {
            self.lent(before, id, given, oracle)
                .map_err(|text| format!("{text}\n{given:?}"))?;
        }
        Ok(oracle)
    }

    fn open_with(&mut self, id: &[u8], given: &Given) -> (Result<(), Refusal>, u8) {
        let library = given.settings(|settings| self.library.reopen_with(id, settings));
        let list = given.list();
        let Given { delay, fee, .. } = *given;
        let oracle = self.oracle.open_with(id, delay, fee, list.as_deref());
        (library, oracle)
    }

    /// Whether an opening over the book before, on memory between guard bytes, leaves the same
    /// book.
    fn lent(&self, before: raw::Book, id: &[u8], given: &Given, expected: u8) -> Outcome {
        let numbers = given.dates.as_deref().unwrap_or(&UNLOOKED);
        let bytes: Vec<u8> = numbers.iter().flat_map(|date| date.to_ne_bytes()).collect();
        // An address that is no multiple of eight, by the length.
        let mut dates = Fenced::new(bytes, 4 * (numbers.len() % 2));
        let mut book = Fenced::new(vec![0; size_of::<raw::Book>()], 0);
        let settings = raw::Settings {
            delay: given.delay,
            fee: given.fee,
            dated: given.dates.is_some(),
        };
        let (at, numbers_n) = (book.pointer::<raw::Book>(), numbers.len());
        // SAFETY: the memory has a book's size and alignment; id and dates are readable.
        let (refusal, after) = unsafe {
            at.write(before);
            let (id, id_n) = (id.as_ptr(), id.len());
            let refusal =
                raw::finaruvom_open_with(at, id, id_n, settings, dates.pointer(), numbers_n);
            (refusal, Book::from_raw((*at).clone()))
        };
        same("lent opening", &refusal, &u32::from(expected))?;
        match book.intact() && dates.untouched() {
            true => same("lent book", &after, &self.library),
            false => Err("an opening wrote where it may not".to_string()),
        }
    }
}
