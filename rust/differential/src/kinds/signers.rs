//! Key makings, signings and spoilt signatures that every run must meet.
use std::ops::Range;

/// A signing: its answer, the next leaf, and the bytes of C and message. Of a kind, what is none may
/// be any.
pub struct Signing {
    pub refusal: u8,
    pub next: Option<u32>,
    pub c: Option<usize>,
    pub message: Option<usize>,
}

/// Key makings by the bytes of seed and identifier; the first is accepted.
pub const MAKINGS: [(&str, usize, usize); 8] = [
    ("keys made", 32, 16),
    ("keys not made of no seed", 0, 16),
    ("keys not made of a seed of 31 bytes", 31, 16),
    ("keys not made of a seed of 33 bytes", 33, 16),
    ("keys not made of no identifier", 32, 0),
    ("keys not made of an identifier of 15 bytes", 32, 15),
    ("keys not made of an identifier of 17 bytes", 32, 17),
    ("keys not made of two wrong lengths", 31, 17),
];

const SIGNINGS: [(&str, Signing); 15] = [
    ("signed with leaf 0", at(0, 0)),
    ("signed with leaf 1", at(0, 1)),
    ("signed with leaf 1,022", at(0, 1_022)),
    ("signed with leaf 1,023", at(0, 1_023)),
    ("signed a message of no byte", of(0, 32, 0)),
    ("signed a message of 1 byte", of(0, 32, 1)),
    ("signed a message of 1,024 bytes", of(0, 32, 1_024)),
    ("not signed a message of 1,025 bytes", of(2, 32, 1_025)),
    ("not signed with a C of no byte", with(0)),
    ("not signed with a C of 31 bytes", with(31)),
    ("not signed with a C of 33 bytes", with(33)),
    ("not signed for a length, with no leaf left", at(2, 1_024)),
    ("not signed with next leaf 1,024", at(15, 1_024)),
    ("not signed with next leaf 1,025", at(15, 1_025)),
    ("not signed with next leaf 2^32 - 1", at(15, u32::MAX)),
];

/// The parts of a signature, each with the name of its kind where one bit of it is turned over.
pub const SPOILT: [(&str, Range<usize>); 6] = [
    ("signatures spoilt in q", 0..4),
    ("signatures spoilt in their one-time type", 4..8),
    ("signatures spoilt in C", 8..40),
    ("signatures spoilt in a chain's string", 40..1_128),
    ("signatures spoilt in their type", 1_128..1_132),
    ("signatures spoilt in the path", 1_132..1_452),
];

/// Signings with this answer and next leaf.
const fn at(refusal: u8, next: u32) -> Signing {
    Signing {
        refusal,
        next: Some(next),
        c: None,
        message: None,
    }
}

/// Signings with this answer and bytes of C and message.
const fn of(refusal: u8, c: usize, message: usize) -> Signing {
    Signing {
        refusal,
        next: None,
        c: Some(c),
        message: Some(message),
    }
}

/// Signings that are refused for a C of so many bytes.
const fn with(c: usize) -> Signing {
    Signing {
        refusal: 2,
        next: None,
        c: Some(c),
        message: None,
    }
}

/// The names of all these kinds.
pub fn names() -> impl Iterator<Item = &'static str> {
    let makings = MAKINGS.iter().map(|(name, ..)| *name);
    let signings = SIGNINGS.iter().map(|(name, _)| *name);
    let spoilt = SPOILT.iter().map(|(name, _)| *name);
    makings.chain(signings).chain(spoilt)
}

/// The kind of a key making, if it is one of them.
pub fn making(seed: &[u8], identifier: &[u8]) -> Option<&'static str> {
    let lengths = (seed.len(), identifier.len());
    let found = MAKINGS.iter().find(|(_, s, i)| (*s, *i) == lengths);
    found.map(|(name, ..)| *name)
}

/// The kinds of a signing.
pub fn signing(signing: &Signing) -> impl Iterator<Item = &'static str> + use<'_> {
    let fits = |kind: &Signing| {
        kind.refusal == signing.refusal
            && (kind.next.is_none() || kind.next == signing.next)
            && (kind.c.is_none() || kind.c == signing.c)
            && (kind.message.is_none() || kind.message == signing.message)
    };
    let found = SIGNINGS.iter().filter(move |(_, kind)| fits(kind));
    found.map(|(name, _)| *name)
}
