//! Whole lives of accounts from a fresh book of any fee on, with what went in and out of each.
use super::World;
use crate::arbitrary;
use crate::kinds::credit;
use crate::ledger::Ledger;
use crate::lives::{lives, Terms};
use crate::pair::{Outcome, Pair};
use crate::rng::Rng;

/// One book, some channels, each used from its 02 to its end.
pub fn case(rng: &mut Rng, world: &mut World) -> Outcome {
    let id = [rng.pick(&[0, 0xff]); 16];
    let mut pair = arbitrary::opened(rng, id, &mut world.tally)?;
    let mut ledger = Ledger::new(pair.oracle.rate);
    let lives = lives();
    for n in 0..8 {
        let life = &lives[rng.below(lives.len())];
        let terms = Terms::new(rng, &world.wallet, id, n, life);
        live(&mut pair, &mut ledger, (n, &terms, life), world)
            .map_err(|text| format!("channel {n}, life {life:?}: {text}"))?;
        pair.read(&mut world.tally)?;
        world.tally.compared("lives of accounts");
    }
    Ok(())
}

/// The commands of a channel's life, which both accept.
fn live(
    pair: &mut Pair,
    ledger: &mut Ledger,
    (n, terms, life): (u16, &Terms, &[u8]),
    world: &mut World,
) -> Outcome {
    for &opcode in life {
        let deadline = pair.oracle.channels[usize::from(n)].deadline;
        let plan = terms.plan(opcode, deadline);
        let command = plan.write(|hand, message| world.wallet.sign(hand, message));
        let answer = pair.apply(&command, &mut world.tally)?;
        if answer.refusal != 0 {
            return Err(format!("{opcode:02X} refused with {}", answer.refusal));
        }
        ledger.enter(&command, &answer, &pair.library)?;
        if let Some(kind) = credit(&pair.oracle, &command) {
            world.tally.compared(kind);
        }
    }
    match pair.oracle.channels[usize::from(n)].status {
        6 => Ok(()),
        status => Err(format!("status {status} at its end")),
    }
}
