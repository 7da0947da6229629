//! Openings with every kind of list, and openings that are wrong in every set of things.
use crate::arbitrary::{dates, wild_book};
use crate::kinds::lists::GIVEN;
use crate::kinds::openings::every_set;
use crate::opening::{Given, Opening};
use crate::pair::{same, Outcome, Pair};
use crate::parts::World;
use crate::rng::Rng;
use oracle::{HIGHEST_RATE, LONGEST_DELAY, MOST_DATES, SHORTEST_DELAY};

/// Each over a book with any values.
pub fn case(rng: &mut Rng, world: &mut World) -> Outcome {
    for (kind, make, refusal) in GIVEN {
        let mut pair = Pair::new(wild_book(rng, &world.wallet));
        let how = Opening::With(Given::default().dated(make(rng)));
        let answer = pair.open(&rng.array::<16>(), &how, &mut world.tally)?;
        same(kind, &answer, &refusal)?;
        world.tally.compared(kind);
    }
    for wrong in every_set() {
        let mut pair = Pair::new(wild_book(rng, &world.wallet));
        let id = rng.bytes(if wrong[0] { 15 } else { 16 });
        let how = Opening::With(given(rng, wrong));
        pair.open(&id, &how, &mut world.tally)?;
    }
    Ok(())
}

/// What is given to an opening that is wrong in these things, the id being the first.
fn given(rng: &mut Rng, [_, default, fee, date, list]: [bool; 5]) -> Given {
    let count = match list {
        true => rng.pick(&[2, MOST_DATES + 1, 70]),
        false => rng.pick(&[1, 2, MOST_DATES - 1]),
    };
    let mut numbers = dates::numbers(&dates::rising(rng, 9, count));
    if list {
        numbers.swap(0, 1);
    }
    if date {
        // Larger than those before it, which so do not fall to it.
        numbers.push(rng.pick(&[24_000_101, 21_000_229, u32::MAX]));
    }
    Given {
        delay: match default {
            true => rng.pick(&[0, SHORTEST_DELAY - 1, LONGEST_DELAY + 1]),
            false => rng.pick(&[SHORTEST_DELAY, LONGEST_DELAY]),
        },
        fee: HIGHEST_RATE + u32::from(fee),
        dates: Some(numbers),
    }
}
