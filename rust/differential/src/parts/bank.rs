//! Payments: collected from lines of any kind and from those of runs, written, and read.

pub mod arbitrary;
mod collecting;
mod reading;
mod runs;
mod writing;

use super::World;
use crate::pair::Outcome;
use crate::rng::Rng;
use oracle::bank::Counted;

/// Each call several times, a long list, whose entries have more than 65,535 bytes, and runs.
pub fn case(rng: &mut Rng, world: &mut World) -> Outcome {
    for _ in 0..8 {
        collecting::case(rng, &mut world.tally)?;
        writing::case(rng, &mut world.tally)?;
        reading::case(rng, &mut world.tally)?;
    }
    writing::held(rng, 6_000, &mut world.tally)?;
    runs::case(rng, world)
}

/// Whether both gave the answer that there must be.
fn answered(what: &str, counted: Counted, refusal: u8, payments: usize) -> Outcome {
    let expected = Counted { refusal, payments };
    match counted == expected {
        true => Ok(()),
        false => Err(format!("{what}: {counted:?} and not {expected:?}")),
    }
}
