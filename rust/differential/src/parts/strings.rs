//! Single strings of random bytes.
use super::World;
use crate::arbitrary;
use crate::pair::{Outcome, Pair};
use crate::rng::Rng;

/// Strings on one sound book, many of them with a known first byte and its length.
pub fn case(rng: &mut Rng, world: &mut World) -> Outcome {
    let mut pair = Pair::new(arbitrary::sound_book(rng, &world.wallet));
    for _ in 0..1_000 {
        let command = string(rng);
        pair.apply(&command, &mut world.tally)?;
        world.tally.compared("random strings");
    }
    Ok(())
}

/// A string that may be a command.
pub fn string(rng: &mut Rng) -> Vec<u8> {
    let first = rng.below(12) as u8;
    let exact = oracle::length(first).unwrap_or(1);
    let length = match rng.below(8) {
        0 => rng.below(20),
        1 => rng.below(4_000),
        2 => exact + 1,
        3 => exact - 1,
        _ => exact,
    };
    let mut bytes = rng.bytes(length);
    if let [head, rest @ ..] = &mut bytes[..] {
        *head = if rng.one_in(8) { *head } else { first };
        if let ([high, low, ..], false) = (rest, rng.one_in(4)) {
            (*high, *low) = (0, *low % 66);
        }
    }
    bytes
}
