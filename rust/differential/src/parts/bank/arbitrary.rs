//! Payments, lists and lines of any kind, biased to edges.
use crate::rng::Rng;
use finaruvom::raw::{Answer, Line};
use finaruvom::Cents;
use oracle::bank::{Payment, ENTRY, LARGEST_AMOUNT};

/// Amounts at the edges of what an entry holds.
const AMOUNTS: [u64; 6] = [0, 0, 1, LARGEST_AMOUNT, LARGEST_AMOUNT + 1, u64::MAX];
/// Channels at the edges of what a book has, and of a byte and two.
const CHANNELS: [u64; 6] = [0, 63, 64, 255, 256, 65_535];

/// A payment that an entry holds.
pub fn payment(rng: &mut Rng) -> Payment {
    let power = 10u64.pow(1 + rng.below(15) as u32);
    let any = 1 + rng.number() % (power - 1);
    Payment {
        party: rng.pick(&[1, 2]),
        channel: rng.pick(&[0, 63, any % 64]),
        amount: rng.pick(&[1, LARGEST_AMOUNT, power / 10, power - 1, any]),
    }
}

/// So many payments that entries hold.
pub fn payments(rng: &mut Rng, count: usize) -> Vec<Payment> {
    (0..count).map(|_| payment(rng)).collect()
}

/// The entries of so many payments.
pub fn entries(rng: &mut Rng, count: usize) -> Vec<[u8; ENTRY]> {
    let mut entries = vec![[0; ENTRY]; count];
    let list = payments(rng, count);
    oracle::bank::write(&list, entries.as_flattened_mut());
    entries
}

/// A list with any numbers, as it may stand in memory before a call.
pub fn wild(rng: &mut Rng, count: usize) -> Vec<Payment> {
    let mut wild = || Payment {
        party: match rng.below(4) {
            0 => rng.edge(),
            _ => rng.pick(&[1, 2]),
        },
        channel: match rng.below(4) {
            0 => rng.edge(),
            _ => channel(rng),
        },
        amount: amount(rng),
    };
    (0..count).map(|_| wild()).collect()
}

/// A channel's number in two bytes.
pub fn channel(rng: &mut Rng) -> u64 {
    match rng.below(4) {
        0 => rng.below(1 << 16) as u64,
        _ => rng.pick(&CHANNELS),
    }
}

/// An amount at an edge, or with any number of digits.
pub fn amount(rng: &mut Rng) -> u64 {
    match rng.below(4) {
        0 => rng.number() >> rng.below(64),
        _ => rng.pick(&AMOUNTS),
    }
}

/// A line with any refusal, amounts and fee.
pub fn line(rng: &mut Rng) -> Line {
    let answer = Answer {
        customer: Cents(amount(rng)),
        merchant: Cents(amount(rng)),
        steps: rng.number() as u32,
        refusal: rng.pick(&[0, 0, 1, 5, 12, 16, 99, 256, u32::MAX]),
        fee: Cents(amount(rng)),
    };
    Line { answer }
}

/// Room that is exact, too short by one or more, or none, or longer.
pub fn room(rng: &mut Rng, needs: usize) -> usize {
    let less = rng.below(needs + 1);
    let more = needs + 1 + rng.below(30);
    rng.pick(&[needs, needs, more, more, needs.saturating_sub(1), less, 0])
}
