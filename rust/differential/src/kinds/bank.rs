//! Collectings, writings and readings that every run must meet.

mod paid;
mod spoilt;

use Call::{Collect, Read, Write};

pub use paid::{paid, Beside};
pub use spoilt::{half, half_kind, LENGTHS, UNREADABLE, UNWRITABLE};

/// What is called.
#[derive(Clone, Copy, PartialEq, Eq)]
pub enum Call {
    Collect,
    Write,
    Read,
}

/// A call: its answer, and the room that it needs and has, in entries of a list or bytes of a
/// buffer.
pub struct Seen {
    pub call: Call,
    pub refusal: u8,
    pub needs: usize,
    pub has: usize,
}

type Room = (&'static str, Call, u8, fn(&Seen) -> bool);

/// Calls by their answer and their room.
const ROOMS: [Room; 20] = [
    ("collected nothing", Collect, 0, Seen::needs_none),
    ("collected into an exact list", Collect, 0, Seen::exact),
    ("collected into a longer list", Collect, 0, Seen::longer),
    ("collected more than 255", Collect, 0, Seen::long),
    ("not collected, one short", Collect, 18, Seen::one_short),
    ("not collected into no list", Collect, 18, Seen::has_none),
    ("written nothing", Write, 0, Seen::needs_none),
    ("written into an exact buffer", Write, 0, Seen::exact),
    ("written into a longer buffer", Write, 0, Seen::longer),
    ("written more than 65,535 bytes", Write, 0, Seen::very_long),
    ("not written with 17, with room", Write, 17, Seen::roomy),
    ("not written with 17, too short", Write, 17, Seen::short),
    ("not written, one byte short", Write, 18, Seen::one_short),
    ("not written into no buffer", Write, 18, Seen::has_none),
    ("read nothing", Read, 0, Seen::needs_none),
    ("read into an exact list", Read, 0, Seen::exact),
    ("read into a longer list", Read, 0, Seen::longer),
    ("read more than 255", Read, 0, Seen::long),
    ("not read, one short", Read, 18, Seen::one_short),
    ("not read into no list", Read, 18, Seen::has_none),
];

/// Where a collecting ends, which is where the run would.
pub const ENDS: [&str; 4] = [
    "collected up to the end",
    "collected up to the last line",
    "collected up to an unknown byte",
    "collected up to a cut command",
];

/// Calls that follow from each other.
pub const READ_BACK: &str = "lists written and read back";
pub const WRITTEN_AGAIN: &str = "strings read and written again";
pub const OF_A_RUN: &str = "payments of runs";
pub const OF_A_RUN_WRITTEN: &str = "payments of runs written";
pub const OF_A_RUN_LESS: &str = "payments of runs less their fees";

impl Seen {
    fn needs_none(&self) -> bool {
        self.needs == 0
    }

    fn has_none(&self) -> bool {
        self.has == 0 && self.needs > 0
    }

    fn exact(&self) -> bool {
        self.needs == self.has && self.needs > 0
    }

    fn longer(&self) -> bool {
        self.needs < self.has && self.needs > 0
    }

    fn long(&self) -> bool {
        self.needs > 255
    }

    fn very_long(&self) -> bool {
        self.needs > 65_535
    }

    fn roomy(&self) -> bool {
        self.needs <= self.has
    }

    fn short(&self) -> bool {
        self.has < self.needs
    }

    fn one_short(&self) -> bool {
        self.has + 1 == self.needs && self.has > 0
    }
}

/// The names of all these kinds.
pub fn names() -> impl Iterator<Item = &'static str> {
    let rooms = ROOMS.iter().map(|(name, ..)| *name);
    let runs = [OF_A_RUN, OF_A_RUN_WRITTEN, OF_A_RUN_LESS];
    let following = [READ_BACK, WRITTEN_AGAIN].into_iter().chain(runs);
    let calls = rooms.chain(ENDS).chain(following);
    calls.chain(paid::names()).chain(spoilt::names())
}

/// The kinds of a call by its room.
pub fn rooms(seen: &Seen) -> impl Iterator<Item = &'static str> + use<'_> {
    let fits = |(_, call, refusal, fits): &&Room| {
        (*call, *refusal) == (seen.call, seen.refusal) && fits(seen)
    };
    ROOMS.iter().filter(fits).map(|(name, ..)| *name)
}
