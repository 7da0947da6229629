//! Deadlines on banking days: openings with lists of every kind, books in which odd lists stand,
//! and closings around shut days.
mod closings;
mod desk;
mod openings;
mod rightly;
mod scenes;
mod stored;

use super::World;
use crate::pair::Outcome;
use crate::rng::Rng;

/// Openings and books of every kind, and some of the closings.
pub fn case(rng: &mut Rng, world: &mut World) -> Outcome {
    openings::case(rng, world)?;
    stored::case(rng, world)?;
    closings::case(rng, world)
}
