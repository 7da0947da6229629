//! Payments of runs: what is collected of each side and channel is what the answers paid, without the
//! fees.
use super::answered;
use super::arbitrary::{room, wild};
use crate::arbitrary::{opened, sound_book};
use crate::kinds::bank::{OF_A_RUN, OF_A_RUN_LESS, OF_A_RUN_WRITTEN};
use crate::lives::{lives, Terms};
use crate::maker::Maker;
use crate::pair::{same, Outcome, Pair};
use crate::parts::World;
use crate::payments::{collect_run, read, write};
use crate::rng::Rng;
use crate::tally::Tally;
use finaruvom::Line;
use oracle::bank::{Payment, ENTRY};
use std::collections::BTreeMap;

/// What was paid to each party of each channel.
type Sums = BTreeMap<(u64, u64), u128>;

/// A book with the commands that it was given, and what their answers paid.
struct Journal {
    start: Pair,
    pair: Pair,
    commands: Vec<Vec<u8>>,
    paid: Sums,
}

impl Journal {
    fn new(start: Pair) -> Journal {
        Journal {
            pair: start.clone(),
            start,
            commands: Vec::new(),
            paid: Sums::new(),
        }
    }

    /// Gives the book a command.
    fn file(&mut self, command: Vec<u8>, tally: &mut Tally) -> Outcome {
        let answer = self.pair.apply(&command, tally)?;
        if let [0x02..=0x0a, high, low, ..] = command[..] {
            let n = u64::from(u16::from_be_bytes([high, low]));
            add(&mut self.paid, 1, n, answer.customer);
            add(&mut self.paid, 2, n, answer.merchant);
        }
        if answer.fee > 0 {
            tally.compared(OF_A_RUN_LESS);
        }
        self.commands.push(command);
        Ok(())
    }

    /// Runs the commands on the book as it was at first, and collects what they paid.
    fn collected(&self, rng: &mut Rng, tally: &mut Tally) -> Outcome {
        let journal = self.commands.concat();
        let mut lines = vec![Line::default(); self.commands.len() + rng.below(3)];
        let ran = self.start.library.clone().run(&journal, &mut lines);
        same("lines", &ran.lines, &self.commands.len())?;
        let mut list = wild(rng, 2 * lines.len());
        let count = collect_run(&journal, &lines, &mut list, tally)?.payments;
        same("paid", &sums(&list[..count]), &self.paid)?;
        for _ in 0..count {
            tally.compared(OF_A_RUN);
        }
        let fewer = &lines[..rng.below(lines.len())];
        for lines in [&lines, fewer] {
            let room = room(rng, count);
            collect_run(&journal, lines, &mut wild(rng, room), tally)?;
        }
        written(rng, &list[..count], tally)
    }
}

/// Runs of commands without signatures from any book, and of lives of accounts.
pub fn case(rng: &mut Rng, world: &mut World) -> Outcome {
    unsigned(rng, world)?;
    whole_lives(rng, world)
}

fn unsigned(rng: &mut Rng, world: &mut World) -> Outcome {
    let mut journal = Journal::new(Pair::new(sound_book(rng, &world.wallet)));
    let mut maker = Maker::new(rng, &mut world.wallet, (0..64).collect());
    for _ in 0..40 {
        let command = maker.unsigned(&journal.pair.oracle);
        journal.file(command, &mut world.tally)?;
    }
    journal.collected(rng, &mut world.tally)
}

fn whole_lives(rng: &mut Rng, world: &mut World) -> Outcome {
    let id = rng.array();
    let mut journal = Journal::new(opened(rng, id, &mut world.tally)?);
    let lives = lives();
    for n in [0, 63] {
        let life = &lives[rng.below(lives.len())];
        let terms = Terms::new(rng, &world.wallet, id, n, life);
        for &opcode in life {
            let deadline = journal.pair.oracle.channels[usize::from(n)].deadline;
            let plan = terms.plan(opcode, deadline);
            let command = plan.write(|hand, message| world.wallet.sign(hand, message));
            journal.file(command, &mut world.tally)?;
        }
    }
    journal.collected(rng, &mut world.tally)
}

/// Writes what was collected, where an entry holds each payment, and reads it back.
fn written(rng: &mut Rng, list: &[Payment], tally: &mut Tally) -> Outcome {
    let mut buffer = rng.bytes(ENTRY * list.len());
    let refusal = write(list, &mut buffer, tally)?.refusal;
    if list.is_empty() || refusal != 0 {
        return Ok(());
    }
    let mut back = wild(rng, list.len());
    answered("read back", read(&buffer, &mut back, tally)?, 0, list.len())?;
    tally.compared(OF_A_RUN_WRITTEN);
    same("list read back", &&*back, &list)
}

/// The sums of a list.
fn sums(list: &[Payment]) -> Sums {
    let mut sums = Sums::new();
    for payment in list {
        add(&mut sums, payment.party, payment.channel, payment.amount);
    }
    sums
}

/// Adds an amount above zero.
fn add(sums: &mut Sums, party: u64, channel: u64, amount: u64) {
    if amount > 0 {
        *sums.entry((party, channel)).or_default() += u128::from(amount);
    }
}
