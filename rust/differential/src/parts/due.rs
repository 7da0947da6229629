//! The due list of books with many equal deadlines: lent ones, and such as commands lead to.
mod filed;
mod lent;

use super::World;
use crate::pair::Outcome;
use crate::rng::Rng;

/// Lent books around every deadline at an edge, and one book that is filed.
pub fn case(rng: &mut Rng, world: &mut World) -> Outcome {
    lent::case(rng, world)?;
    filed::case(rng, world)
}
