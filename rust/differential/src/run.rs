//! A run over the cases.
use crate::options::{Limit, Options, USAGE};
use crate::parts::{Part, World, PARTS};
use std::time::Instant;

/// Rounds of a run that ends by time, at least: a slow machine too meets all that must be met.
const LEAST: u64 = 20;

/// Runs the cases in rounds of one for each part; gives the tally, or what differs.
pub fn run(options: &Options) -> Result<String, String> {
    let parts = chosen(options)?;
    let start = Instant::now();
    let mut world = World::default();
    let mut round = 0;
    while goes_on(options.limit, round, start) {
        for part in &parts {
            part.run(options.seed.wrapping_add(round), &mut world)?;
        }
        round += 1;
    }
    let missing = world.tally.missing();
    if parts.len() == PARTS.len() && !missing.is_empty() {
        return Err(format!("{}never seen: {}", world.tally, missing.join("; ")));
    }
    Ok(world.tally.to_string())
}

/// The part named, or all.
fn chosen(options: &Options) -> Result<Vec<Part>, String> {
    let Some(name) = &options.part else {
        return Ok(PARTS.to_vec());
    };
    let named: Vec<Part> = PARTS
        .iter()
        .filter(|part| part.name == name)
        .copied()
        .collect();
    match named.is_empty() {
        true => Err(USAGE.to_string()),
        false => Ok(named),
    }
}

fn goes_on(limit: Limit, round: u64, start: Instant) -> bool {
    match limit {
        Limit::Time(time) => round < LEAST || start.elapsed() < time,
        Limit::Cases(cases) => round < cases.max(1),
    }
}
