//! Payments that no entry holds, and bytes that are not entries.
use oracle::bank::{Payment, ENTRY, LARGEST_AMOUNT};

/// The name of a kind, and a way to spoil what is of it.
type Spoil<T> = (&'static str, fn(&mut T));

/// Ways to spoil a payment.
pub const UNWRITABLE: [Spoil<Payment>; 14] = [
    ("not written for party 0", |it| it.party = 0),
    ("not written for party 3", |it| it.party = 3),
    ("not written for party 2^8 + 1", |it| it.party = 0x101),
    ("not written for party 2^32 + 2", |it| {
        it.party = (1 << 32) + 2
    }),
    ("not written for n 64", |it| it.channel = 64),
    ("not written for n 2^8 + 5", |it| it.channel = (1 << 8) + 5),
    ("not written for n 2^16 + 5", |it| {
        it.channel = (1 << 16) + 5
    }),
    ("not written for n 2^32 + 5", |it| {
        it.channel = (1 << 32) + 5
    }),
    ("not written for n 2^64 - 1", |it| it.channel = u64::MAX),
    ("not written for 0", |it| it.amount = 0),
    ("not written for 10^15", |it| it.amount = LARGEST_AMOUNT + 1),
    ("not written for 10^16", |it| it.amount = 10u64.pow(16)),
    ("not written for 2^63", |it| it.amount = 1 << 63),
    ("not written for 2^64 - 1", |it| it.amount = u64::MAX),
];

/// Ways to spoil an entry.
pub const UNREADABLE: [Spoil<[u8; ENTRY]>; 12] = [
    ("not read for party 0", |it| it[0] = 0),
    ("not read for party 3", |it| it[0] = 3),
    ("not read for a party's high half", |it| it[0] |= 0x10),
    ("not read for n 64", |it| it[2] = 64),
    ("not read for the high byte of n", |it| it[1] = 1),
    ("not read for n 65,535", |it| it[1..3].fill(0xff)),
    ("not read for a last half of 0", |it| half(it, 15, 0)),
    ("not read for a last half of 9", |it| half(it, 15, 9)),
    ("not read for a last half of B", |it| half(it, 15, 0xb)),
    ("not read for a last half of D", |it| half(it, 15, 0xd)),
    ("not read for a last half of F", |it| half(it, 15, 0xf)),
    ("not read for an amount of 0", |it| {
        (0..15).for_each(|place| half(it, place, 0))
    }),
];

/// Half bytes above 9 by their place.
const HALVES: [&str; 3] = [
    "not read for a first half byte above 9",
    "not read for a fifteenth half byte above 9",
    "not read for a half byte above 9 between",
];

/// Bytes to read that are no multiple of 11.
pub const LENGTHS: [(&str, usize); 6] = [
    ("not read, 1 byte", 1),
    ("not read, 10 bytes", 10),
    ("not read, 12 bytes", 12),
    ("not read, 21 bytes", 21),
    ("not read, 23 bytes", 23),
    ("not read, 32 bytes", 32),
];

/// Writes a half byte of an entry's amount, the place counted from the first digit.
pub fn half(entry: &mut [u8; ENTRY], place: usize, half: u8) {
    let byte = &mut entry[3 + place / 2];
    *byte = match place % 2 {
        0 => half << 4 | *byte & 0x0f,
        _ => *byte & 0xf0 | half,
    };
}

/// The kind of a half byte above 9 at this place.
pub fn half_kind(place: usize) -> &'static str {
    match place {
        0 => HALVES[0],
        14 => HALVES[1],
        _ => HALVES[2],
    }
}

/// The names of these kinds.
pub fn names() -> impl Iterator<Item = &'static str> {
    let payments = UNWRITABLE.iter().map(|(name, _)| *name);
    let entries = UNREADABLE.iter().map(|(name, _)| *name);
    let lengths = LENGTHS.iter().map(|(name, _)| *name);
    payments.chain(entries).chain(lengths).chain(HALVES)
}
