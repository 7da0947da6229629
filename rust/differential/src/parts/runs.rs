//! Runs over journals.
use super::World;
use crate::arbitrary;
use crate::maker::Maker;
use crate::pair::{same, Outcome, Pair};
use crate::rng::Rng;
use crate::tally::Tally;
use crate::wallet::Wallet;
use finaruvom::raw::{Answer, Line};
use finaruvom::Cents;
use oracle::Book;

/// What stands in the lines before a run.
pub const FORMER: Line = Line {
    answer: Answer {
        refusal: 0xa500_00a5,
        customer: Cents(0xa5a5_a5a5_a5a5_a5a5),
        merchant: Cents(0x5a5a_5a5a_5a5a_5a5a),
        steps: 0xa5a5_5a5a,
        fee: Cents(0xa5a5_5a5a_a5a5_5a5a),
    },
};

/// A journal of short commands, cut everywhere, and a longer one in several runs.
pub fn case(rng: &mut Rng, world: &mut World) -> Outcome {
    let make = rng.pick(&[
        arbitrary::sound_book,
        arbitrary::sound_book,
        arbitrary::touched_book,
    ]);
    let start = Pair::new(make(rng, &world.wallet));
    let unsigned = |maker: &mut Maker, book: &Book| maker.unsigned(book);
    let short = journal(rng, &mut world.wallet, &start, 200, unsigned);
    cuts(rng, &start, &short, &mut world.tally)?;
    counts(&start, &short, &mut world.tally)?;
    let long = journal(rng, &mut world.wallet, &start, 5_000, whole);
    let end = rng.pick(&[long.len(), long.len() / 2]);
    again(rng, &start, &long[..end], &mut world.tally)
}

/// Commands one after the other up to this length, and a last byte that may be no command.
fn journal(
    rng: &mut Rng,
    wallet: &mut Wallet,
    start: &Pair,
    length: usize,
    command: impl Fn(&mut Maker, &Book) -> Vec<u8>,
) -> Vec<u8> {
    let mut book = start.oracle.clone();
    let mut journal = Vec::new();
    let mut maker = Maker::new(rng, wallet, (0..64).collect());
    loop {
        let command = command(&mut maker, &book);
        if journal.len() + command.len() > length {
            break;
        }
        oracle::apply(&mut book, &command);
        journal.extend(command);
    }
    if rng.one_in(4) {
        journal.push(rng.pick(&[0, 11, 0xff]));
    }
    journal
}

/// A command of whole length, with few exceptions.
fn whole(maker: &mut Maker, book: &Book) -> Vec<u8> {
    loop {
        let command = maker.command(book);
        let length = command.first().and_then(|first| oracle::length(*first));
        if length == Some(command.len()) || maker.rng.one_in(16) {
            return command;
        }
    }
}

/// The journal cut at every byte, with few lines or many.
fn cuts(rng: &mut Rng, start: &Pair, journal: &[u8], tally: &mut Tally) -> Outcome {
    for cut in 0..=journal.len() {
        let mut lines = vec![FORMER; rng.below(40)];
        let _ = start.clone().run(&journal[..cut], &mut lines, tally)?;
    }
    Ok(())
}

/// The same journal with 0, 1, 2 .. lines.
fn counts(start: &Pair, journal: &[u8], tally: &mut Tally) -> Outcome {
    for count in 0..24 {
        let mut lines = vec![FORMER; count];
        let _ = start.clone().run(journal, &mut lines, tally)?;
    }
    Ok(())
}

/// A run called again while lines are short comes as far as one with lines enough.
fn again(rng: &mut Rng, start: &Pair, journal: &[u8], tally: &mut Tally) -> Outcome {
    let mut whole = start.clone();
    let at_once = whole.run(journal, &mut vec![FORMER; journal.len()], tally)?;
    let mut pair = start.clone();
    let mut lines = vec![FORMER; 1 + rng.below(4)];
    let mut used = 0;
    loop {
        let ran = pair.run(&journal[used..], &mut lines, tally)?;
        used += ran.used;
        if ran.cause != 13 {
            same("cause", &ran.cause, &at_once.cause)?;
            break;
        }
    }
    same("bytes used", &used, &at_once.used)?;
    same("book", pair.library.as_raw(), whole.library.as_raw())
}
