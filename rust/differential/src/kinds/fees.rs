//! Accepted commands by what they pay and by their fee, which every run must meet.
use oracle::{fee, Answer, Book, Command, HIGHEST_RATE, LARGEST};

/// An accepted command to a channel: its first byte, the rate of its book, what it paid to the
/// customer and to the merchant with the fee, the fee, and the channel's total.
struct Seen {
    opcode: u8,
    rate: u32,
    customer: u64,
    amount: u64,
    fee: u64,
    total: u64,
}

type Kind = (&'static str, fn(&Seen) -> bool);

const KINDS: [Kind; 18] = [
    ("06 accepted with a fee", |it| it.charged(0x06)),
    ("07 accepted with a fee", |it| it.charged(0x07)),
    ("09 accepted with a fee", |it| it.charged(0x09)),
    ("0A accepted with a fee", |it| it.charged(0x0a)),
    (
        "09 whose fee and its 07's are less than the total's",
        |it| it.charged(0x09) && it.apart() < fee(it.total, it.rate),
    ),
    ("05 accepted without a fee at a rate above 0", |it| {
        it.free(0x05)
    }),
    (
        "0A for the customer without a fee at a rate above 0",
        |it| it.free(0x0a),
    ),
    ("06 for both with a fee", |it| {
        it.charged(0x06) && it.customer > 0
    }),
    ("fees of 0 at a rate above 0", |it| {
        it.rate > 0 && it.amount > 0 && it.fee == 0
    }),
    ("fees of 1", |it| it.fee == 1),
    ("fees without a rest", |it| it.fee > 0 && it.rest() == 0),
    ("fees with a rest of 9,999", |it| it.rest() == 9_999),
    ("fees of the least amount that has them", |it| {
        it.fee > 0 && it.rest() < u128::from(it.rate)
    }),
    ("fees of the largest amount that has them", |it| {
        it.fee > 0 && it.rest() + u128::from(it.rate) >= 10_000
    }),
    ("fees of 2^63 - 1", |it| it.amount == LARGEST && it.fee > 0),
    ("fees of 2^63 - 1 at the highest rate", |it| {
        it.amount == LARGEST && it.rate == HIGHEST_RATE
    }),
    ("amounts of 9 at the highest rate", |it| {
        it.amount == 9 && it.rate == HIGHEST_RATE
    }),
    ("payments to a merchant at a rate of 0", |it| {
        it.amount > 0 && it.rate == 0
    }),
];

impl Seen {
    /// What is seen of a command with this answer, in the book that it left.
    fn new(book: &Book, command: &[u8], answer: &Answer) -> Option<Seen> {
        let n = Command::parse(command).ok()?.channel?;
        let total = book.channels.get(usize::from(n))?.deposits();
        let accepted = Seen {
            opcode: command[0],
            rate: book.rate,
            customer: answer.customer,
            amount: answer.merchant + answer.fee,
            fee: answer.fee,
            total: total.try_into().ok()?,
        };
        (answer.refusal == 0).then_some(accepted)
    }

    /// A command of this kind with a fee.
    fn charged(&self, opcode: u8) -> bool {
        self.opcode == opcode && self.fee > 0
    }

    /// A command of this kind that pays the customer alone, at a rate above 0.
    fn free(&self, opcode: u8) -> bool {
        self.opcode == opcode && self.rate > 0 && self.customer > 0 && self.fee == 0
    }

    /// The fee of a 09 and that of the 07 before it, which paid the rest of the total.
    fn apart(&self) -> u64 {
        self.fee + fee(self.total - self.amount, self.rate)
    }

    /// What is left of amount × rate over whole cents, in ten-thousandths.
    fn rest(&self) -> u128 {
        u128::from(self.amount) * u128::from(self.rate) % 10_000
    }
}

/// The names of all these kinds.
pub fn names() -> impl Iterator<Item = &'static str> {
    KINDS.iter().map(|(name, _)| *name)
}

/// The kinds of a command with this answer.
pub fn kinds(book: &Book, command: &[u8], answer: &Answer) -> impl Iterator<Item = &'static str> {
    let seen = Seen::new(book, command, answer);
    let found = KINDS
        .iter()
        .filter(move |(_, kind)| seen.as_ref().is_some_and(kind));
    found.map(|(name, _)| *name)
}
