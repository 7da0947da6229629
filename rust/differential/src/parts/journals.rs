//! Lists of commands from a fresh book of any default and fee, made by somebody who knows its state,
//! with the account of each channel.
use super::World;
use crate::arbitrary;
use crate::kinds::{credit, kind, FILED};
use crate::ledger::Ledger;
use crate::maker::Maker;
use crate::pair::Outcome;
use crate::rng::Rng;

/// One book, some channels, some commands.
pub fn case(rng: &mut Rng, world: &mut World) -> Outcome {
    let id = [rng.pick(&[0, 0xff]); 16];
    let mut pair = arbitrary::opened(rng, id, &mut world.tally)?;
    let (channels, commands) = match rng.below(8) {
        0 => ((0..64).collect(), 400),
        _ => (some_channels(rng), 60),
    };
    let mut maker = Maker::new(rng, &mut world.wallet, channels);
    let mut ledger = Ledger::new(pair.oracle.rate);
    for number in 1..=commands {
        let command = maker.command(&pair.oracle);
        let answer = pair
            .apply(&command, &mut world.tally)
            .map_err(|text| format!("command {number}, {text}"))?;
        pair.read(&mut world.tally)?;
        let found = match answer.refusal {
            0 => credit(&pair.oracle, &command),
            10 => kind(&pair.oracle, &command, 10).map(|_| FILED),
            _ => None,
        };
        if let Some(kind) = found {
            world.tally.compared(kind);
        }
        if answer.refusal == 0 {
            ledger.enter(&command, &answer, &pair.library)?;
            maker.remember(command);
        }
    }
    world.tally.compared("journals");
    Ok(())
}

/// Up to five channels.
fn some_channels(rng: &mut Rng) -> Vec<u16> {
    let count = 1 + rng.below(5);
    (0..count)
        .map(|_| rng.pick(&[0, 1, 31, 32, 62, 63]))
        .collect()
}
