//! Channels that are due by what is closing beside them, which every run must meet.
use oracle::{Book, Channel, LARGEST};

/// Due lists of a book in which every channel is closing, with one deadline.
pub const ALL: &str = "due lists of 64 closings with one deadline";
/// Books of which nothing is due.
pub const NO_CLOSING: &str = "none due where nobody is closing";
pub const UNSOUND: &str = "none due of an unsound book with closings";

/// A channel that is closing, what it holds, and what stands in its kept part, which is looked at in
/// a customer's closing alone.
struct Closing {
    n: usize,
    merchants: bool,
    deadline: u64,
    total: u64,
    held: u64,
    kept: u64,
}

/// How the channel that is due stands to another one.
type Kind = (&'static str, fn(&Closing, &Closing) -> bool);

const KINDS: [Kind; 19] = [
    ("due for the larger sum, the lower number", |it, other| {
        it.larger(other) && it.n < other.n
    }),
    ("due for the larger sum, the higher number", |it, other| {
        it.larger(other) && it.n > other.n
    }),
    ("due for one cent more", |it, other| {
        it.larger(other) && it.held - other.held == 1
    }),
    ("due for 2^63 - 1 against one cent less", |it, other| {
        it.larger(other) && (it.held, other.held) == (LARGEST, LARGEST - 1)
    }),
    ("due for a sum whose low half is not larger", |it, other| {
        it.larger(other) && it.held as u32 <= other.held as u32
    }),
    (
        "due for the larger sum, the total being smaller",
        |it, other| it.larger(other) && it.total < other.total,
    ),
    (
        "due for the larger sum, with less in an unused part",
        |it, other| it.larger(other) && it.merchants && it.kept < other.held,
    ),
    (
        "due for the larger sum, before more in an unused part",
        |it, other| it.larger(other) && other.merchants && it.held < other.kept,
    ),
    (
        "due for the larger sum, a merchant's before a customer's",
        |it, other| it.larger(other) && it.merchants && !other.merchants,
    ),
    (
        "due for the larger sum, a customer's before a merchant's",
        |it, other| it.larger(other) && !it.merchants && other.merchants,
    ),
    (
        "due for the lower number, the sums being equal",
        |it, other| it.equal(other) && it.n < other.n && it.held > 0,
    ),
    ("due for the lower number, the sums being 0", |it, other| {
        it.equal(other) && it.n < other.n && it.held == 0
    }),
    (
        "due for the lower number, a merchant's before a customer's",
        |it, other| it.equal(other) && it.merchants && !other.merchants,
    ),
    (
        "due for the lower number, a customer's before a merchant's",
        |it, other| it.equal(other) && !it.merchants && other.merchants,
    ),
    ("due for the deadline, before a larger sum", |it, other| {
        it.deadline < other.deadline && it.held < other.held
    }),
    (
        "due for a second, before a larger sum of a lower number",
        |it, other| {
            it.deadline.checked_add(1) == Some(other.deadline)
                && it.held < other.held
                && it.n > other.n
        },
    ),
    ("due for the larger sum at deadline 0", |it, other| {
        it.larger(other) && it.deadline == 0
    }),
    ("due for the larger sum at deadline 2^63", |it, other| {
        it.larger(other) && it.deadline == 1 << 63
    }),
    (
        "due for the larger sum at deadline 2^64 - 1",
        |it, other| it.larger(other) && it.deadline == u64::MAX,
    ),
];

/// The same of books that were brought there by commands.
const FILED: [Kind; 5] = [
    (
        "0A by the due list, on the larger sum first",
        Closing::larger,
    ),
    (
        "0A by the due list, on the lower number first",
        Closing::equal,
    ),
    (
        "0A by the due list, on a merchant's closing before a customer's",
        |it, other| it.deadline == other.deadline && it.merchants && !other.merchants,
    ),
    (
        "0A by the due list, on a customer's closing before a merchant's",
        |it, other| it.deadline == other.deadline && !it.merchants && other.merchants,
    ),
    (
        "0A by the due list, before a larger sum with a later deadline",
        |it, other| it.deadline < other.deadline && it.held < other.held,
    ),
];

impl Closing {
    /// What is closing in the channel, if something is.
    fn new((n, channel): (usize, &Channel)) -> Option<Closing> {
        let total = channel.customer.deposit + channel.merchant.deposit;
        let held = match channel.status {
            4 => total,
            5 => channel.kept,
            _ => return None,
        };
        Some(Closing {
            n,
            merchants: channel.status == 4,
            deadline: channel.deadline,
            total,
            held,
            kept: channel.kept,
        })
    }

    /// Whether it has the same deadline and the larger sum.
    fn larger(&self, other: &Closing) -> bool {
        self.deadline == other.deadline && self.held > other.held
    }

    /// Whether it is another one with the same deadline and sum.
    fn equal(&self, other: &Closing) -> bool {
        self.n != other.n && (self.deadline, self.held) == (other.deadline, other.held)
    }
}

/// The names of all these kinds.
pub fn names() -> impl Iterator<Item = &'static str> {
    let kinds = KINDS.iter().chain(&FILED).map(|(name, _)| *name);
    kinds.chain([ALL, NO_CLOSING, UNSOUND])
}

/// The kinds of a sound book in which this channel is due.
pub fn kinds(book: &Book, due: u8) -> impl Iterator<Item = &'static str> {
    found(&KINDS, book, due)
}

/// The same of a book that was brought there by commands, in which this channel is settled next.
pub fn filed(book: &Book, due: u8) -> impl Iterator<Item = &'static str> {
    found(&FILED, book, due)
}

fn found(kinds: &'static [Kind], book: &Book, due: u8) -> impl Iterator<Item = &'static str> {
    let due = usize::from(due);
    let channels = book.channels.iter().enumerate();
    let closings: Vec<_> = channels.filter_map(Closing::new).collect();
    let met = move |kind: fn(&Closing, &Closing) -> bool| {
        let first = closings.iter().find(|closing| closing.n == due);
        first.is_some_and(|first| closings.iter().any(|other| kind(first, other)))
    };
    let found = kinds.iter().filter(move |(_, kind)| met(*kind));
    found.map(|(name, _)| *name)
}
