//! Lent books in which many closings have equal deadlines and sums.
use crate::arbitrary::sound_book;
use crate::kinds::due::{kinds, ALL, NO_CLOSING, UNSOUND};
use crate::pair::{same, Outcome, Pair};
use crate::parts::World;
use crate::rng::Rng;
use finaruvom::raw::{Book, Channel};
use finaruvom::{Cents, Seconds};
use oracle::{CHANNELS, HIGHEST_RATE, LARGEST, LONGEST_DELAY, SHORTEST_DELAY};

/// Deadlines of which a book has one or some neighbours.
const DEADLINES: [u64; 8] = [
    0,
    1,
    345_600,
    (1 << 32) - 1,
    LARGEST,
    1 << 63,
    u64::MAX - 1,
    u64::MAX,
];

/// Sums of which a book has some; their low halves do not rise with them.
const SUMS: [u64; 10] = [
    0,
    1,
    700,
    999,
    1_000,
    1 << 32,
    (1 << 32) + 1,
    1 << 62,
    LARGEST - 1,
    LARGEST,
];

/// The deadlines and sums that the closings of a book have.
struct Pools {
    deadlines: Vec<u64>,
    sums: Vec<u64>,
}

/// A book for each deadline at an edge, one with all channels and one deadline, and an unsound one.
pub fn case(rng: &mut Rng, world: &mut World) -> Outcome {
    for deadline in DEADLINES {
        let any = 2 + rng.below(CHANNELS - 1);
        let count = rng.pick(&[2, 3, any, any, CHANNELS]);
        let book = Pools::around(rng, deadline).book(rng, count, world);
        listed(book, world).map_err(|text| format!("{count} closings, {text}"))?;
    }
    let all = Pools::largest(rng).book(rng, CHANNELS, world);
    unsound(rng, all.clone(), world)?;
    listed(all, world)?;
    world.tally.compared(ALL);
    Ok(())
}

/// Asks for the due list to its end: each channel that is due is closed in both books, and the next
/// one is asked for.
fn listed(mut book: Book, world: &mut World) -> Outcome {
    let closing = |channel: &&Channel| matches!(channel.status, 4 | 5);
    let closings = book.channels.iter().filter(closing).count();
    for place in 0..closings {
        let pair = Pair::new(book.clone());
        let due = pair
            .due(&mut world.tally)
            .map_err(|text| format!("place {place}: {text}"))?;
        let n = due.ok_or_else(|| format!("none due at place {place} of {closings}"))?;
        kinds(&pair.oracle, n).for_each(|kind| world.tally.compared(kind));
        book.channels[usize::from(n)].status = 6;
    }
    let pair = Pair::new(book);
    same("due at last", &pair.due(&mut world.tally)?, &None)?;
    world.tally.compared(NO_CLOSING);
    world.tally.compared("due lists of lent books");
    pair.read(&mut world.tally)
}

/// Nothing is due of a book that has one value out of its limits.
fn unsound(rng: &mut Rng, mut book: Book, world: &mut World) -> Outcome {
    let channel = &mut book.channels[rng.below(CHANNELS)];
    match rng.below(7) {
        0 => book.mark ^= 1 << rng.below(64),
        1 => book.clock = Seconds(LARGEST + 1),
        2 => book.setup.fee = HIGHEST_RATE + 1,
        3 => book.setup.dated = 2,
        4 => channel.status = rng.pick(&[7, 260, 0x0500_0000, u32::MAX]),
        5 => channel.delay = SHORTEST_DELAY - 1,
        _ => (channel.customer.deposit, channel.merchant.deposit) = (Cents(LARGEST), Cents(1)),
    }
    let pair = Pair::new(book);
    same("sound", &pair.oracle.sound(), &false)?;
    same("due", &pair.due(&mut world.tally)?, &None)?;
    world.tally.compared(UNSOUND);
    Ok(())
}

impl Pools {
    /// One to three deadlines around this one, one to three sums.
    fn around(rng: &mut Rng, deadline: u64) -> Pools {
        let deadlines = [0, 1, u64::MAX].map(|by| deadline.wrapping_add(by));
        let sum = rng.pick(&SUMS);
        let sums = [sum, rng.pick(&SUMS), sum.saturating_sub(1)];
        Pools {
            deadlines: deadlines[..rng.pick(&[1, 2, 2, 3])].to_vec(),
            sums: sums[..rng.pick(&[1, 2, 3, 3, 3])].to_vec(),
        }
    }

    /// One deadline, the largest sums and any.
    fn largest(rng: &mut Rng) -> Pools {
        Pools {
            deadlines: vec![rng.pick(&DEADLINES)],
            sums: vec![LARGEST - 1, LARGEST, rng.pick(&SUMS)],
        }
    }

    /// A sound book in which so many channels are closing.
    fn book(&self, rng: &mut Rng, count: usize, world: &World) -> Book {
        let mut book = sound_book(rng, &world.wallet);
        let mut left = count;
        for (n, channel) in book.channels.iter_mut().enumerate() {
            let closes = rng.below(CHANNELS - n) < left;
            left -= usize::from(closes);
            self.put(rng, channel, closes);
        }
        book
    }

    /// Makes the channel a closing of the pools, or one that nobody is closing, often with a smaller
    /// deadline and a larger sum.
    fn put(&self, rng: &mut Rng, channel: &mut Channel, closes: bool) {
        let sum = rng.pick(&self.sums);
        let odd = rng.pick(&[0, 1, sum, sum + 1, LARGEST, u64::MAX]);
        let more = rng.pick(&[sum, (sum + 1).min(LARGEST), LARGEST]);
        channel.deadline = Seconds(rng.pick(&self.deadlines));
        channel.status = match closes {
            true => rng.pick(&[4, 5]),
            false => rng.pick(&[0, 1, 2, 3, 3, 6, 6]),
        };
        let (total, kept) = match channel.status {
            4 => (sum, odd),
            5 => (more, sum),
            _ => (more, odd),
        };
        if !closes && rng.one_in(2) {
            channel.deadline = Seconds(0);
        }
        let part = rng.pick(&[0, 1, total / 2, total]).min(total);
        channel.customer.deposit = Cents(part);
        channel.merchant.deposit = Cents(total - part);
        channel.kept = Cents(kept);
        channel.delay = channel.delay.clamp(SHORTEST_DELAY, LONGEST_DELAY);
    }
}
