//! Books of every fee: channels that are settled for the merchant, with amounts at the edges of a cent
//! of fee.
use super::runs::FORMER;
use super::World;
use crate::ledger::divided;
use crate::opening::{Given, Opening};
use crate::pair::{same, Outcome, Pair};
use crate::rng::Rng;
use crate::tally::Tally;
use finaruvom::raw::Book;
use finaruvom::Cents;
use oracle::{fee, CHANNELS, HIGHEST_RATE, LARGEST, SHORTEST_DELAY};

/// Cases in a row that have every rate together, as many as a run has at least.
const CASES: usize = 20;

/// Amounts at the edges of what a channel holds, and of a cent of fee at the lowest and the highest
/// rate.
const EDGES: [u64; 10] = [
    0,
    1,
    9,
    10,
    9_999,
    10_000,
    10_001,
    20_000,
    LARGEST - 1,
    LARGEST,
];

/// Every twentieth rate, from one on that the seed decides.
pub fn case(rng: &mut Rng, world: &mut World) -> Outcome {
    let first = (rng.seed() % CASES as u64) as u32;
    for rate in (first..=HIGHEST_RATE).step_by(CASES) {
        let amounts = amounts(rng, rate);
        let start = closing(rng, rate, &amounts, &mut world.tally)?;
        settled(start, &amounts, &mut world.tally)
            .map_err(|text| format!("rate {rate}, {text}"))?;
    }
    Ok(())
}

/// An amount for each channel: edges, any, and the neighbours of the least with some fee.
fn amounts(rng: &mut Rng, rate: u32) -> Vec<u64> {
    let mut amounts = EDGES.to_vec();
    while amounts.len() < CHANNELS {
        let any = rng.number() >> (1 + rng.below(63));
        amounts.push(any);
        amounts.extend(neighbours(any, rate));
    }
    amounts.truncate(CHANNELS);
    amounts
}

/// The least amount that has the fee of this one, or a cent, a multiple of 10,000 / rate, and those
/// on both sides of it; none where there is no fee.
fn neighbours(amount: u64, rate: u32) -> Vec<u64> {
    let cents = u128::from(fee(amount, rate).max(1));
    let least = (10_000 * cents).div_ceil(u128::from(rate.max(1))) as u64;
    match rate {
        0 => Vec::new(),
        _ => vec![least - 1, least, (least + 1).min(LARGEST)],
    }
}

/// A book that was opened with a fee, in which merchants have closed channels with these amounts.
fn closing(rng: &mut Rng, rate: u32, amounts: &[u64], tally: &mut Tally) -> Result<Pair, String> {
    let id = rng.array();
    let mut pair = Pair::fresh(id)?;
    let how = Opening::With(Given {
        fee: rate,
        ..Given::default()
    });
    same("opening", &pair.open(&id, &how, tally)?, &0)?;
    let mut book: Book = pair.library.as_raw().clone();
    for (channel, amount) in book.channels.iter_mut().zip(amounts) {
        let part = rng.pick(&[0, 1, amount / 2, *amount]).min(*amount);
        channel.status = 4;
        channel.delay = SHORTEST_DELAY;
        channel.customer.deposit = Cents(part);
        channel.merchant.deposit = Cents(amount - part);
    }
    Ok(Pair::new(book))
}

/// Settles every channel, in a run and one by one, and each once more, which is refused.
fn settled(start: Pair, amounts: &[u64], tally: &mut Tally) -> Outcome {
    let commands: Vec<[u8; 3]> = (0..CHANNELS).map(|n| [0x0a, 0, n as u8]).collect();
    let mut lines = [FORMER; CHANNELS + 1];
    let ran = start
        .clone()
        .run(commands.as_flattened(), &mut lines, tally)?;
    same("lines", &ran.lines, &CHANNELS)?;
    let mut pair = start;
    let mut fees = Vec::new();
    for (command, amount) in commands.iter().zip(amounts) {
        let answer = pair.apply(command, tally)?;
        divided(pair.oracle.rate, &answer)?;
        let paid = [answer.customer, answer.merchant + answer.fee];
        same("paid", &paid, &[0, *amount])?;
        fees.push((*amount, answer.fee));
        let again = pair.apply(command, tally)?;
        same("settled again", &[again.merchant, again.fee], &[0, 0])?;
        tally.compared("fees");
    }
    bound(pair.oracle.rate, fees)
}

/// Whether an amount larger by d cents has a fee that is higher by at least the whole part of
/// d × rate / 10,000, and by at most one cent more.
fn bound(rate: u32, mut fees: Vec<(u64, u64)>) -> Outcome {
    fees.sort_unstable();
    for (at, (amount, fee)) in fees.iter().enumerate() {
        for (larger, higher) in &fees[at..] {
            let least = u128::from(larger - amount) * u128::from(rate) / 10_000;
            let raise = u128::from(*higher).checked_sub(u128::from(*fee));
            if raise != Some(least) && raise != Some(least + 1) {
                return Err(format!(
                    "a fee of {fee} of {amount}, of {higher} of {larger}"
                ));
            }
        }
    }
    Ok(())
}
