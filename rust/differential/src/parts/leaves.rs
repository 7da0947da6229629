//! Scenes in which leaves are used again on purpose, each on channels that were just opened.
mod scenes;

use super::World;
use crate::arbitrary;
use crate::lives::Terms;
use crate::pair::{Outcome, Pair};
use crate::plan::Plan;
use crate::rng::Rng;
use crate::wallet::LEAVES;
use oracle::SIGNATURE;
use scenes::{Account, Fault, Step, SCENES};

/// Every scene, with any leaves.
pub fn case(rng: &mut Rng, world: &mut World) -> Outcome {
    for (name, steps) in SCENES {
        let mut stage = Stage::new(rng, world)?;
        for (number, step) in (1..).zip(steps) {
            stage
                .file(step, world)
                .map_err(|text| format!("{name}, command {number}: {text}"))?;
        }
        world.tally.compared("scenes of leaves");
    }
    Ok(())
}

/// A book with the channels of a scene, and the leaves by their places.
struct Stage {
    pair: Pair,
    accounts: [Terms; 3],
    leaves: [u32; 3],
}

impl Stage {
    /// Two open channels, and one that awaits its merchant.
    fn new(rng: &mut Rng, world: &mut World) -> Result<Stage, String> {
        let id = [rng.pick(&[0, 0xff]); 16];
        let first = Terms::new(rng, &world.wallet, id, 0, &[2, 3, 4]);
        let [second, third] = [1, 2].map(|n| first.of_channel(n));
        let mut stage = Stage {
            pair: arbitrary::opened(rng, id, &mut world.tally)?,
            accounts: [first, second, third.swapped()],
            leaves: leaves(rng),
        };
        for account in [Account::First, Account::Second, Account::Swapped] {
            let funding: &[u8] = match account {
                Account::Swapped => &[2, 3],
                _ => &[2, 3, 4],
            };
            for &opcode in funding {
                let command = stage.plan(account, opcode).write(|_, _| [0; SIGNATURE]);
                stage.apply(&command, 0, world)?;
            }
        }
        Ok(stage)
    }

    /// The right command of this kind; an 01 sets the clock to the channel's deadline.
    fn plan(&self, account: Account, opcode: u8) -> Plan {
        let n = account as usize;
        let deadline = self.pair.oracle.channels[n].deadline;
        self.accounts[n].plan(opcode, deadline)
    }

    /// Files the command of a step.
    fn file(&mut self, step: &Step, world: &mut World) -> Outcome {
        let mut plan = self.plan(step.account, step.opcode);
        for (hand, place) in plan.signers.iter_mut().zip(step.leaves) {
            hand.leaf = place.map(|place| self.leaves[place]);
        }
        if let Some(Fault::Secret) = step.fault {
            plan.string[0] ^= 1;
        }
        let mut command = plan.write(|hand, message| world.wallet.sign(hand, message));
        if let Some(fault) = step.fault {
            self.spoil(&mut command, fault);
        }
        self.apply(&command, step.refusal, world)
    }

    /// Gives both books a command, which is to be answered with this refusal.
    fn apply(&mut self, command: &[u8], refusal: u8, world: &mut World) -> Outcome {
        let answer = self.pair.apply(command, &mut world.tally)?;
        match answer.refusal == refusal {
            true => self.pair.read(&mut world.tally),
            false => Err(format!("answered {} and not {refusal}", answer.refusal)),
        }
    }

    /// Damages a signature of the command; a wrong secret stands there already.
    fn spoil(&self, command: &mut [u8], fault: Fault) {
        let customer = command.len() - SIGNATURE;
        let merchant = match command[0] {
            6 | 7 => customer - SIGNATURE,
            _ => customer,
        };
        match fault {
            Fault::Secret => {}
            Fault::Merchant => command[merchant + 100] ^= 1,
            Fault::Customer => command[customer + 100] ^= 1,
            Fault::Form => command[merchant + 7] ^= 1,
            Fault::Named(place) => {
                let named = self.leaves[place].to_be_bytes();
                command[merchant..merchant + 4].copy_from_slice(&named);
            }
        }
    }
}

/// Three leaves: any, next to each other, or equal but for their high bits.
fn leaves(rng: &mut Rng) -> [u32; 3] {
    match rng.below(3) {
        0 => rng.distinct(&LEAVES),
        1 => rng.distinct(&[7, 8, 9]),
        _ => rng.distinct(&[0, 256, 512]),
    }
}
