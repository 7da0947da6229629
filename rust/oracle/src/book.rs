//! The book, its channels and when it is sound; by document 02 No. 1 an opening gives the default
//! delay, by its No. 5 a channel remembers leaves, by its No. 7 an opening gives the rate of the
//! fee, by its No. 8 the dates on which the bank is shut.
use crate::calendar::Date;
use crate::shut::Shut;
use std::ops::RangeInclusive;

/// Channels of a book.
pub const CHANNELS: usize = 64;
/// The largest clock and the largest total, 2^63 - 1.
pub const LARGEST: u64 = (1 << 63) - 1;
/// The shortest delay in seconds.
pub const SHORTEST_DELAY: u32 = 3_600;
/// The longest delay in seconds.
pub const LONGEST_DELAY: u32 = 2_592_000;
/// The delays of a channel, and the defaults of a book.
pub const DELAYS: RangeInclusive<u32> = SHORTEST_DELAY..=LONGEST_DELAY;
/// The default of the plain opening.
pub const PLAIN_DEFAULT: u32 = 86_400;
/// The default of the desk's new books, of document 02 No. 1.
pub const DESK_DEFAULT: u32 = 172_800;
/// The highest rate of the fee, of document 02 No. 7, in ten-thousandths.
pub const HIGHEST_RATE: u32 = 1_000;
/// The rate of the plain opening.
pub const PLAIN_RATE: u32 = 0;

/// One side of a channel.
#[derive(Clone, Copy, Debug, PartialEq, Eq)]
pub struct Party {
    /// The LMS key.
    pub key: [u8; 56],
    /// The deposit agreed, D_c or D_b.
    pub deposit: u64,
}

/// The leaves of the merchant's signatures that a channel remembers, of document 02 No. 5.
#[derive(Clone, Copy, Debug, PartialEq, Eq)]
pub struct Remembered {
    /// The one in the accepted 08, where there was one.
    pub in_08: Option<u32>,
    /// The one in the accepted 07.
    pub in_07: Option<u32>,
}

/// A channel.
#[derive(Clone, Copy, Debug, PartialEq, Eq)]
pub struct Channel {
    /// 0 unused, 1 awaiting customer, 2 awaiting merchant, 3 open, 4 merchant closing, 5 customer
    /// closing, 6 closed.
    pub status: u8,
    /// The paper's café.
    pub customer: Party,
    /// The paper's bakery.
    pub merchant: Party,
    /// Seconds from a closing to its deadline.
    pub delay: u32,
    /// The closing's deadline.
    pub deadline: u64,
    /// The closing's customer part.
    pub kept: u64,
    /// The closing's lock.
    pub lock: [u8; 32],
    /// The merchant's leaves that no dispute may use again.
    pub remembered: Remembered,
}

/// A book.
#[derive(Clone, Debug, PartialEq, Eq)]
pub struct Book {
    /// Whether it carries the mark that every opening writes.
    pub marked: bool,
    /// The book id.
    pub id: [u8; 16],
    /// What a delay of 0 in 02 stands for, of document 02 No. 1.
    pub default_delay: u32,
    /// What the desk keeps of each payment to the merchant, r of document 02 No. 7.
    pub rate: u32,
    /// The days on which no deadline falls, of document 02 No. 8.
    pub shut: Shut,
    /// The clock.
    pub clock: u64,
    /// The channels by their numbers.
    pub channels: [Channel; CHANNELS],
}

impl Channel {
    /// A channel that nobody used.
    pub const UNUSED: Channel = Channel {
        status: 0,
        customer: Party::NOBODY,
        merchant: Party::NOBODY,
        delay: 0,
        deadline: 0,
        kept: 0,
        lock: [0; 32],
        remembered: Remembered::NONE,
    };

    /// The two deposits together, as a whole number.
    pub fn deposits(&self) -> u128 {
        u128::from(self.customer.deposit) + u128::from(self.merchant.deposit)
    }

    /// Whether a sound book may have this channel.
    fn sound(&self) -> bool {
        let limits = self.deposits() <= u128::from(LARGEST) && DELAYS.contains(&self.delay);
        match self.status {
            0 => true,
            1..=4 | 6 => limits,
            5 => limits && u128::from(self.kept) <= self.deposits(),
            _ => false,
        }
    }
}

impl Remembered {
    /// No leaf.
    pub const NONE: Remembered = Remembered {
        in_08: None,
        in_07: None,
    };

    /// Whether this leaf is one of them.
    pub fn has(&self, leaf: u32) -> bool {
        [self.in_08, self.in_07].contains(&Some(leaf))
    }
}

impl Party {
    const NOBODY: Party = Party {
        key: [0; 56],
        deposit: 0,
    };
}

impl Book {
    /// A fresh book with this id, as the plain opening leaves it.
    pub fn fresh(id: [u8; 16]) -> Book {
        Book {
            marked: true,
            id,
            default_delay: PLAIN_DEFAULT,
            rate: PLAIN_RATE,
            shut: Shut::NONE,
            clock: 0,
            channels: [Channel::UNUSED; CHANNELS],
        }
    }

    /// The plain opening: makes the book fresh and answers 0; an id that is not 16 bytes long gives
    /// 2.
    pub fn open(&mut self, id: &[u8]) -> u8 {
        self.open_with(id, PLAIN_DEFAULT, PLAIN_RATE, None)
    }

    /// The opening that gives its default, of document 02 No. 1, its rate, of No. 7, and at times a
    /// list of dates, of No. 8: after the id, a default out of range gives 14, then a rate above
    /// 1,000 gives 20, then the list 21 or 22.
    pub fn open_with(
        &mut self,
        id: &[u8],
        default_delay: u32,
        rate: u32,
        dates: Option<&[Date]>,
    ) -> u8 {
        let Ok(id) = id.try_into() else {
            return 2;
        };
        if !DELAYS.contains(&default_delay) {
            return 14;
        }
        if rate > HIGHEST_RATE {
            return 20;
        }
        let shut = match dates.map_or(Ok(Shut::NONE), Shut::of) {
            Ok(shut) => shut,
            Err(refusal) => return refusal,
        };
        *self = Book {
            default_delay,
            rate,
            shut,
            ..Book::fresh(id)
        };
        0
    }

    /// Whether the book is sound. Default, rate and dates are values set at opening, so their
    /// limits are kept.
    pub fn sound(&self) -> bool {
        self.marked
            && DELAYS.contains(&self.default_delay)
            && self.rate <= HIGHEST_RATE
            && self.shut.sound()
            && self.clock <= LARGEST
            && self.channels.iter().all(Channel::sound)
    }
}
