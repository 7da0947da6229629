//! The kinds of cases. A case depends on its seed alone.
mod accounts;
mod bank;
mod books;
mod boundary;
mod days;
mod due;
mod faults;
mod fees;
mod hashes;
mod journals;
mod leaves;
mod runs;
mod signatures;
mod signers;
mod strings;

use crate::pair::Outcome;
use crate::rng::Rng;
use crate::tally::Tally;
use crate::tills::Tills;
use crate::wallet::Wallet;
use std::panic::{catch_unwind, AssertUnwindSafe};

/// What the cases of a run share.
#[derive(Default)]
pub struct World {
    pub wallet: Wallet,
    /// The signers of the key that library and oracle made.
    pub made: Option<Tills>,
    pub tally: Tally,
}

type Case = fn(&mut Rng, &mut World) -> Outcome;

/// A kind of case.
#[derive(Clone, Copy)]
pub struct Part {
    /// Its name on the command line.
    pub name: &'static str,
    case: Case,
}

/// All kinds.
pub const PARTS: &[Part] = &[
    part("journals", journals::case),
    part("accounts", accounts::case),
    part("fees", fees::case),
    part("days", days::case),
    part("due", due::case),
    part("leaves", leaves::case),
    part("strings", strings::case),
    part("books", books::case),
    part("faults", faults::case),
    part("signatures", signatures::case),
    part("signers", signers::case),
    part("bank", bank::case),
    part("hashes", hashes::case),
    part("boundary", boundary::case),
    part("runs", runs::case),
];

const fn part(name: &'static str, case: Case) -> Part {
    Part { name, case }
}

impl Part {
    /// Runs the case of a seed; a difference, or a panic, is told with how to see it again.
    pub fn run(&self, seed: u64, world: &mut World) -> Outcome {
        let mut rng = Rng::new(seed);
        let case = catch_unwind(AssertUnwindSafe(|| (self.case)(&mut rng, world)));
        let outcome = case.unwrap_or_else(|_| Err("a panic".to_string()));
        outcome.map_err(|text| {
            let name = self.name;
            let again =
                format!("target/release/differential --part {name} --seed {seed} --cases 1");
            format!("{name}, seed {seed}: {text}\nrun it again: {again}")
        })
    }
}
