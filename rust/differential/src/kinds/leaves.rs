//! Closings and disputes by their leaves, which every run must meet.
use oracle::{Book, Command};

/// A command that the merchant signed: its first byte and answer, the leaf that its signature names,
/// and what its channel remembers after it.
struct Seen {
    opcode: u8,
    refusal: u8,
    leaf: u32,
    in_08: Option<u32>,
    in_07: Option<u32>,
}

type Kind = (&'static str, fn(&Seen) -> bool);

const KINDS: [Kind; 9] = [
    ("07 accepted with the leaf of the 08", |seen| {
        seen.is(7, 0) && seen.in_08 == Some(seen.leaf)
    }),
    ("09 refused for the leaf of a 07 alone", |seen| {
        seen.is(9, 16) && seen.in_08.is_none()
    }),
    (
        "09 refused for the leaf of an 08 that was answered",
        |seen| seen.is(9, 16) && seen.in_07 != Some(seen.leaf),
    ),
    ("09 refused for the leaf of an answer to an 08", |seen| {
        seen.is(9, 16) && ![None, Some(seen.leaf)].contains(&seen.in_08)
    }),
    ("09 refused for a leaf that 08 and 07 used", |seen| {
        seen.is(9, 16) && seen.in_08 == seen.in_07
    }),
    ("09 refused for leaf 0", |seen| {
        seen.is(9, 16) && seen.leaf == 0
    }),
    ("09 accepted with leaf 0", |seen| {
        seen.is(9, 0) && seen.leaf == 0
    }),
    (
        "09 accepted with the low byte of a remembered leaf",
        |seen| {
            let low = |leaf: u32| leaf % 256 == seen.leaf % 256;
            seen.is(9, 0) && (seen.in_08.is_some_and(low) || seen.in_07.is_some_and(low))
        },
    ),
    ("09 refused with 11 that names a remembered leaf", |seen| {
        seen.is(9, 11) && [seen.in_08, seen.in_07].contains(&Some(seen.leaf))
    }),
];

impl Seen {
    /// What is seen of a command that left this book.
    fn new(book: &Book, command: &[u8], refusal: u8) -> Option<Seen> {
        let parsed = Command::parse(command).ok()?;
        let leaf = parsed.merchant_signature()?.first_chunk()?;
        let channel = book.channels.get(usize::from(parsed.channel?))?;
        Some(Seen {
            opcode: command[0],
            refusal,
            leaf: u32::from_be_bytes(*leaf),
            in_08: channel.remembered.in_08,
            in_07: channel.remembered.in_07,
        })
    }

    fn is(&self, opcode: u8, refusal: u8) -> bool {
        (self.opcode, self.refusal) == (opcode, refusal)
    }
}

/// The names of these kinds.
pub fn names() -> impl Iterator<Item = &'static str> {
    KINDS.iter().map(|(name, _)| *name)
}

/// The kinds of a command with this answer.
pub fn kinds(book: &Book, command: &[u8], refusal: u8) -> impl Iterator<Item = &'static str> {
    let seen = Seen::new(book, command, refusal);
    let found = KINDS
        .iter()
        .filter(move |(_, kind)| seen.as_ref().is_some_and(kind));
    found.map(|(name, _)| *name)
}
