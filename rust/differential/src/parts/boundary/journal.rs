//! Reading, due list and journal on memory between guard bytes.
use super::{kept, lend};
use crate::fence::Fenced;
use crate::pair::{same, Outcome};
use crate::parts::strings::string;
use crate::rng::Rng;
use finaruvom::raw;
use std::mem::size_of;

/// Reads a channel and the due list.
pub fn read(rng: &mut Rng, book: &mut Fenced) -> Outcome {
    let n = rng.pick(&[0, 1, 63, 64, 65_535, usize::MAX]);
    let book_at = book.pointer::<raw::Book>();
    let (reading, found);
    // SAFETY: the book is readable, and any bytes are a book.
    let (before, after) = unsafe {
        let before = (*book_at).clone();
        reading = raw::finaruvom_read(book_at, n);
        found = raw::finaruvom_due(book_at);
        (before, (*book_at).clone())
    };
    kept("read or due", &[book], &[])?;
    match (reading.refusal, reading.status, found.some, found.channel) {
        (0 | 4 | 99, 0..=6, true, 0..=63) | (0 | 4 | 99, 0..=6, false, 0) => {}
        _ => return Err(format!("read or due: {reading:?}, {found:?}")),
    }
    same("book after and before read and due", &after, &before)
}

/// Runs strings into a few lines.
pub fn run(rng: &mut Rng, book: &mut Fenced) -> Outcome {
    let commands = (0..rng.below(6)).flat_map(|_| string(rng)).collect();
    let mut commands = lend(rng, commands);
    let count = rng.below(6);
    let mut lines = Fenced::new(rng.bytes(count * size_of::<raw::Line>()), 0);
    // SAFETY: book and lines are writable and the commands readable.
    let ran = unsafe {
        raw::finaruvom_run(
            book.pointer(),
            commands.pointer(),
            commands.length(),
            lines.pointer(),
            count,
        )
    };
    kept("run", &[book, &lines], &[&commands])?;
    match (ran.lines <= count, ran.used <= commands.length(), ran.cause) {
        (true, true, 0 | 1 | 2 | 13) => Ok(()),
        _ => Err(format!("run: {ran:?}")),
    }
}
