//! Books with any values, and openings of any kind, biased to edges.

pub mod dates;

use crate::bridge::mark;
use crate::opening::{Given, Opening};
use crate::pair::Pair;
use crate::rng::Rng;
use crate::tally::Tally;
use crate::wallet::{Wallet, LEAVES};
use finaruvom::raw::{Book, Channel, Leaves, Party, Setup};
use finaruvom::{Cents, Seconds, Settings};
use oracle::{
    digest, DAY, DAYS, DESK_DEFAULT, HIGHEST_RATE, LARGEST, LONGEST_DELAY, PLAIN_DEFAULT,
    SHORTEST_DELAY,
};

const DELAYS: [u32; 9] = [
    0,
    SHORTEST_DELAY - 1,
    SHORTEST_DELAY,
    SHORTEST_DELAY + 1,
    PLAIN_DEFAULT,
    DESK_DEFAULT,
    LONGEST_DELAY,
    LONGEST_DELAY + 1,
    u32::MAX,
];

/// Fees at the edges of their range; the low half of some is one in range.
const FEES: [u32; 10] = [
    0,
    1,
    HIGHEST_RATE,
    HIGHEST_RATE + 1,
    HIGHEST_RATE + 1,
    10_000,
    1 << 16,
    (1 << 16) + 250,
    u32::MAX,
    u32::MAX,
];

/// Statuses that are none, but for 5. Some would be one if a part of their bits were dropped.
const ODD_STATUSES: [u32; 12] = [
    5,
    7,
    8,
    255,
    256,
    259,
    261,
    0x0001_0004,
    0x0300_0000,
    0x8000_0005,
    u32::MAX - 250,
    u32::MAX,
];

/// Leaves that no key has. Some would be one if a part of their bits were dropped, or their bytes
/// turned round.
const ODD_LEAVES: [u32; 7] = [
    1_024,
    1_031,
    1 << 16,
    (1 << 16) + 511,
    0x0700_0000,
    0x8000_0000,
    u32::MAX,
];

/// A book with any values in all fields.
pub fn wild_book(rng: &mut Rng, wallet: &Wallet) -> Book {
    let clock = rng.edge();
    let channels = std::array::from_fn(|_| wild_channel(rng, wallet, clock));
    Book {
        mark: if rng.one_in(2) { mark() } else { rng.edge() },
        id: rng.array(),
        setup: wild_setup(rng, clock),
        clock: Seconds(clock),
        channels,
    }
}

/// A sound book.
pub fn sound_book(rng: &mut Rng, wallet: &Wallet) -> Book {
    let clock = match rng.below(4) {
        0 => rng.edge().min(LARGEST),
        1 => LARGEST,
        _ => 1_000_000 + rng.number() % 1_000_000,
    };
    let channels = std::array::from_fn(|_| sound_channel(rng, wallet, clock));
    Book {
        mark: mark(),
        id: [rng.pick(&[0, 0xff]); 16],
        setup: sound_setup(rng, clock),
        clock: Seconds(clock),
        channels,
    }
}

/// A sound book, of which one or two values were then changed; it may still be sound.
pub fn touched_book(rng: &mut Rng, wallet: &Wallet) -> Book {
    let mut book = sound_book(rng, wallet);
    for _ in 0..1 + rng.below(2) {
        let at = rng.below(64);
        match rng.below(11) {
            0 => book.mark ^= 1 << rng.below(64),
            1 => book.clock = Seconds(rng.edge()),
            2 => book.setup.delay = wild_delay(rng),
            3 => book.setup.fee = wild_fee(rng),
            4 | 5 => dates::touch(rng, &mut book.setup),
            _ => touch(rng, &mut book.channels[at]),
        }
    }
    book
}

/// What a sound book keeps of its opening. Its dates are around the deadlines of closings at this
/// clock.
fn sound_setup(rng: &mut Rng, clock: u64) -> Setup {
    let mut setup = Setup {
        delay: default_in_range(rng),
        fee: fee_in_range(rng),
        days: [0; 64],
        count: 0,
        dated: 0,
    };
    let around = (clock / DAY).min(u64::from(DAYS - 1)) as u32;
    if !rng.one_in(4) {
        dates::put_sound(rng, &mut setup, around);
    }
    setup
}

/// What a book may keep of its opening, of any kind.
fn wild_setup(rng: &mut Rng, clock: u64) -> Setup {
    let mut setup = sound_setup(rng, clock);
    (setup.delay, setup.fee) = (wild_delay(rng), wild_fee(rng));
    if rng.one_in(4) {
        setup.days = setup.days.map(|_| rng.number() as u32);
    }
    for _ in 0..rng.below(3) {
        dates::touch(rng, &mut setup);
    }
    setup
}

/// An opening: the plain one, or one with settings and dates that are in range or not.
pub fn opening(rng: &mut Rng) -> Opening {
    let around = rng.below(40) as u32;
    let (delay, fee) = match rng.below(12) {
        0 => return Opening::Plain,
        1 => return Opening::With(Given::default()),
        2 => return Opening::With(Given::of(&Settings::desk())),
        3..=6 => (default_in_range(rng), fee_in_range(rng)),
        7 => (default_in_range(rng), rng.pick(&FEES)),
        8 => (rng.pick(&DELAYS), fee_in_range(rng)),
        _ => (rng.pick(&DELAYS), rng.pick(&FEES)),
    };
    let dates = dates::any(rng, around);
    Opening::With(Given { delay, fee, dates })
}

/// Both fresh, by an opening of any kind that is accepted.
pub fn opened(rng: &mut Rng, id: [u8; 16], tally: &mut Tally) -> Result<Pair, String> {
    let mut pair = Pair::fresh(id)?;
    while pair.open(&id, &opening(rng), tally)? != 0 {}
    Ok(pair)
}

/// A default in its range, at its edges or between.
fn default_in_range(rng: &mut Rng) -> u32 {
    let between = SHORTEST_DELAY + rng.below((LONGEST_DELAY - SHORTEST_DELAY) as usize) as u32;
    rng.pick(&[
        SHORTEST_DELAY,
        PLAIN_DEFAULT,
        DESK_DEFAULT,
        between,
        LONGEST_DELAY,
    ])
}

/// A fee in its range, at its edges or between.
fn fee_in_range(rng: &mut Rng) -> u32 {
    let between = rng.below(HIGHEST_RATE as usize) as u32;
    rng.pick(&[0, 1, 250, between, HIGHEST_RATE - 1, HIGHEST_RATE])
}

/// A default of any kind.
fn wild_delay(rng: &mut Rng) -> u32 {
    match rng.below(4) {
        0 => rng.number() as u32,
        _ => rng.pick(&DELAYS),
    }
}

/// A fee of any kind.
fn wild_fee(rng: &mut Rng) -> u32 {
    match rng.below(4) {
        0 => rng.number() as u32,
        _ => rng.pick(&FEES),
    }
}

/// Changes one value of a channel.
fn touch(rng: &mut Rng, channel: &mut Channel) {
    let [customer, merchant] = [channel.customer.deposit.0, channel.merchant.deposit.0];
    let total = customer.wrapping_add(merchant);
    match rng.below(6) {
        0 => channel.status = rng.pick(&ODD_STATUSES),
        1 => channel.delay = rng.pick(&DELAYS),
        2 => channel.customer.deposit = Cents(rng.edge()),
        3 => channel.merchant.deposit = Cents(rng.edge()),
        4 => channel.merchant.deposit = Cents(0u64.wrapping_sub(customer)),
        _ => channel.kept = Cents(rng.pick(&[total, total.wrapping_add(1), u64::MAX])),
    }
}

fn wild_channel(rng: &mut Rng, wallet: &Wallet, clock: u64) -> Channel {
    Channel {
        status: match rng.below(9) {
            status @ 0..=6 => status as u32,
            _ => rng.pick(&ODD_STATUSES),
        },
        customer: party(rng, wallet),
        merchant: party(rng, wallet),
        delay: rng.pick(&DELAYS),
        deadline: Seconds(deadline(rng, clock)),
        kept: Cents(rng.edge()),
        lock: lock(rng, wallet),
        leaves: Leaves {
            first: leaf(rng),
            second: leaf(rng),
        },
    }
}

/// A leaf that the keys can sign with, or one that no key has.
fn leaf(rng: &mut Rng) -> u32 {
    match rng.below(4) {
        0 => rng.pick(&ODD_LEAVES),
        _ => rng.pick(&LEAVES),
    }
}

/// A channel as a sound book has it: wild if unused, else with its limits kept.
fn sound_channel(rng: &mut Rng, wallet: &Wallet, clock: u64) -> Channel {
    let mut channel = wild_channel(rng, wallet, clock);
    channel.status = rng.pick(&[0, 1, 2, 3, 3, 4, 4, 5, 5, 6]);
    if channel.status != 0 {
        channel.delay = channel.delay.clamp(SHORTEST_DELAY, LONGEST_DELAY);
        let customer = channel.customer.deposit.0.min(LARGEST);
        let merchant = channel.merchant.deposit.0.min(LARGEST - customer);
        channel.customer.deposit = Cents(customer);
        channel.merchant.deposit = Cents(merchant);
        if channel.status == 5 {
            channel.kept = channel.kept.min(Cents(customer + merchant));
        }
    }
    channel
}

/// A key that can sign, or any bytes, and a deposit.
fn party(rng: &mut Rng, wallet: &Wallet) -> Party {
    Party {
        key: match rng.below(16) {
            0 => rng.array(),
            _ => wallet.key(rng.below(Wallet::PARTIES)),
        },
        deposit: Cents(match rng.below(4) {
            0 => rng.edge(),
            1 => 0,
            _ => rng.pick(&[1, 100, 900, 1 << 62]),
        }),
    }
}

/// A deadline around the clock, or at an edge.
fn deadline(rng: &mut Rng, clock: u64) -> u64 {
    match rng.below(6) {
        0 => rng.edge(),
        1 => clock.wrapping_sub(1),
        2 => clock,
        3 => clock.wrapping_add(3_600),
        _ => clock.wrapping_add(1),
    }
}

/// A lock with a known secret, one bit off such a lock, zeros, or any bytes.
pub fn lock(rng: &mut Rng, wallet: &Wallet) -> [u8; 32] {
    let mut lock = digest(&rng.pick(wallet.secrets()));
    match rng.below(8) {
        0 => lock = [0; 32],
        1 => lock = rng.array(),
        2 => rng.flip_bit(&mut lock[..1]),
        3 => rng.flip_bit(&mut lock[31..]),
        4 => rng.flip_bit(&mut lock),
        _ => {}
    }
    lock
}
