//! Books that are sound but for the list which stands in them, and sound ones with an odd list.
use crate::arbitrary::sound_book;
use crate::kinds::lists::STORED;
use crate::pair::{same, Outcome, Pair};
use crate::parts::runs::FORMER;
use crate::parts::World;
use crate::rng::Rng;
use finaruvom::raw::Setup;

/// Each with a list and without one.
pub fn case(rng: &mut Rng, world: &mut World) -> Outcome {
    for (kind, change, sound) in STORED {
        for dated in [0, 1] {
            let mut book = sound_book(rng, &world.wallet);
            full(&mut book.setup, dated);
            change(&mut book.setup);
            let pair = Pair::new(book);
            same(kind, &pair.oracle.sound(), &sound)?;
            held(pair, rng, world).map_err(|text| format!("{kind}: {text}"))?;
            world.tally.compared(kind);
        }
    }
    Ok(())
}

/// Fills the list with 64 days from day 9 on.
fn full(setup: &mut Setup, dated: u32) {
    for (day, number) in setup.days.iter_mut().zip(9..) {
        *day = number;
    }
    (setup.count, setup.dated) = (64, dated);
}

/// Stores and reads the book, and gives it a command, run and applied.
fn held(mut pair: Pair, rng: &mut Rng, world: &mut World) -> Outcome {
    let settle = [0x0a, 0, rng.below(64) as u8];
    pair.stored(&mut world.tally)?;
    pair.read(&mut world.tally)?;
    let mut lines = [FORMER; 2];
    let _ = pair.clone().run(&settle, &mut lines, &mut world.tally)?;
    pair.apply(&settle, &mut world.tally)?;
    pair.read(&mut world.tally)
}
