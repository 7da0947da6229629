//! Arbitrary books, sound and unsound.
use super::runs::FORMER;
use super::World;
use crate::arbitrary;
use crate::kinds::soundness;
use crate::maker::Maker;
use crate::opening::Opening;
use crate::pair::{same, Outcome, Pair};
use crate::rng::Rng;
use crate::wallet::Wallet;
use finaruvom::raw::Book;

/// Many books with one command, run and applied, then some, each with some commands and openings at
/// last.
pub fn case(rng: &mut Rng, world: &mut World) -> Outcome {
    for _ in 0..100 {
        let mut pair = pair(rng, world, arbitrary::touched_book);
        let settle = [0x0a, 0, rng.below(64) as u8];
        pair.stored(&mut world.tally)?;
        let mut lines = [FORMER; 2];
        let _ = pair.clone().run(&settle, &mut lines, &mut world.tally)?;
        pair.apply(&settle, &mut world.tally)?;
        pair.read(&mut world.tally)?;
    }
    for _ in 0..4 {
        let make = rng.pick(&[
            arbitrary::sound_book,
            arbitrary::sound_book,
            arbitrary::touched_book,
            arbitrary::touched_book,
            arbitrary::wild_book,
        ]);
        let mut pair = pair(rng, world, make);
        pair.stored(&mut world.tally)?;
        commands(&mut pair, rng, world)?;
        pair.stored(&mut world.tally)?;
        openings(&mut pair, rng, world)?;
    }
    Ok(())
}

type Make = fn(&mut Rng, &Wallet) -> Book;

fn pair(rng: &mut Rng, world: &mut World, make: Make) -> Pair {
    let pair = Pair::new(make(rng, &world.wallet));
    world.tally.compared(soundness(&pair.oracle));
    pair
}

/// Commands that know the book's values.
fn commands(pair: &mut Pair, rng: &mut Rng, world: &mut World) -> Outcome {
    let mut maker = Maker::new(rng, &mut world.wallet, (0..64).collect());
    for _ in 0..12 {
        let command = maker.command(&pair.oracle);
        pair.apply(&command, &mut world.tally)?;
        pair.read(&mut world.tally)?;
    }
    Ok(())
}

/// Openings of any kind with ids of any length, then a plain one.
fn openings(pair: &mut Pair, rng: &mut Rng, world: &mut World) -> Outcome {
    for length in [16, rng.below(16), 17 + rng.below(64), 15, 17, 0, 16] {
        let how = arbitrary::opening(rng);
        pair.open(&rng.bytes(length), &how, &mut world.tally)?;
    }
    pair.open(&rng.bytes(16), &Opening::Plain, &mut world.tally)?;
    let fresh = Pair::fresh(pair.oracle.id)?;
    let (library, expected) = (pair.library.as_bytes(), fresh.library.as_bytes());
    same("bytes of an opened book", library, expected)
}
