//! Compares the library with the oracle on cases that depend on a seed alone.

mod arbitrary;
pub mod bridge;
mod fence;
mod kinds;
mod ledger;
pub mod lives;
mod maker;
mod opening;
mod options;
mod pair;
mod parts;
mod payments;
pub mod plan;
pub mod rng;
mod run;
mod spoil;
mod tally;
mod tills;
pub mod wallet;

pub use options::{Limit, Options, USAGE};
pub use run::run;
