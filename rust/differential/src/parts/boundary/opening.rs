//! Openings on memory between guard bytes.
use super::{kept, lend, refused_with_2};
use crate::arbitrary::dates;
use crate::fence::Fenced;
use crate::kinds::openings::kind;
use crate::opening::{Given, Opening};
use crate::pair::{same, Outcome};
use crate::rng::Rng;
use finaruvom::raw::{self, Setup};
use oracle::Shut;

/// The plain opening.
pub fn open(rng: &mut Rng, book: &mut Fenced) -> Outcome {
    let id = rng.bytes_of(&[0, 1, 15, 17, 16]);
    let mut id = lend(rng, id);
    let before = book.bytes().to_vec();
    // SAFETY: the book is writable and the id readable.
    let refusal = unsafe { raw::finaruvom_open(book.pointer(), id.pointer(), id.length()) };
    kept("open", &[book], &[&id])?;
    stays("open", refusal, &before, book)?;
    refused_with_2("open", refusal, id.length() != 16)
}

/// An opening with settings and dates of any kind; where there is no list, with any numbers.
pub fn open_with(rng: &mut Rng, book: &mut Fenced) -> Outcome {
    let id = rng.bytes_of(&[0, 1, 15, 17, 16, 16, 16]);
    let mut id = lend(rng, id);
    let around = rng.below(1 << 17) as u32;
    let given = Given {
        delay: rng.pick(&[0, 3_599, 3_600, 172_800, 2_592_000, 2_592_001, u32::MAX]),
        fee: rng.pick(&[0, 1, 250, 1_000, 1_001, u32::MAX]),
        dates: dates::any(rng, around),
    };
    let settings = raw::Settings {
        delay: given.delay,
        fee: given.fee,
        dated: given.dates.is_some(),
    };
    let lent = given.dates.clone().unwrap_or_else(|| vec![dates::bad(rng)]);
    let bytes = lent.iter().flat_map(|date| date.to_ne_bytes()).collect();
    let mut dates = Fenced::new(bytes, 4 * rng.below(2));
    let before = book.bytes().to_vec();
    let (at, id_n, dates_n) = (book.pointer::<raw::Book>(), id.length(), lent.len());
    // SAFETY: the book is writable, and id and dates are readable.
    let (refusal, setup) = unsafe {
        let (id, dates) = (id.pointer(), dates.pointer());
        let refusal = raw::finaruvom_open_with(at, id, id_n, settings, dates, dates_n);
        (refusal, (*at).setup)
    };
    kept("open_with", &[book], &[&id, &dates])?;
    stays("open_with", refusal, &before, book)?;
    let (_, expected) = kind(id.bytes(), &Opening::With(given.clone()));
    same("open_with", &refusal, &u32::from(expected))?;
    match refusal {
        0 => same("setup", &setup, &stored(&given)),
        _ => Ok(()),
    }
}

/// Whether an opening that was refused left every byte of the book.
fn stays(call: &str, refusal: u32, before: &[u8], book: &Fenced) -> Outcome {
    match refusal == 0 || book.bytes() == before {
        true => Ok(()),
        false => Err(format!(
            "{call}: refused with {refusal}, and the book changed"
        )),
    }
}

/// What a book keeps of an opening that is accepted.
fn stored(given: &Given) -> Setup {
    let list = given.list().map(|dates| Shut::of(&dates));
    let shut = list
        .unwrap_or(Ok(Shut::NONE))
        .expect("a list that is accepted");
    let mut days = [0; 64];
    days[..shut.days.len()].copy_from_slice(&shut.days);
    Setup {
        delay: given.delay,
        fee: given.fee,
        days,
        count: shut.days.len() as u32,
        dated: shut.listed,
    }
}
