//! What can be read of a book: a channel, and which one is due.
use crate::book::Book;
use crate::numbered::{named, numbered};
use crate::raw;
use crate::refusal::Refusal;
use crate::sizes::DIGEST_SIZE;
use crate::units::{Cents, Seconds};

numbered! {
    /// The status of a channel.
    ///
    /// ```
    /// use finaruvom::{Status, UnknownNumber};
    ///
    /// assert_eq!(Status::Open.number(), 3);
    /// assert_eq!(Status::AwaitingCustomer.to_string(), "awaiting the customer");
    /// assert_eq!(Status::try_from(6), Ok(Status::Closed));
    /// assert_eq!(Status::try_from(7), Err(UnknownNumber(7)));
    /// ```
    Status: u8 {
        Unused = 0: "unused",
        AwaitingCustomer = 1: "awaiting the customer",
        AwaitingMerchant = 2: "awaiting the merchant",
        Open = 3: "open",
        MerchantClosing = 4: "merchant closing",
        CustomerClosing = 5: "customer closing",
        Closed = 6: "closed",
    }
}

/// What a reading of a channel gives.
#[must_use]
#[derive(Clone, Copy, Debug, PartialEq, Eq, Hash)]
pub struct Reading {
    /// The channel's status.
    pub status: Status,
    /// The two agreed deposits together; 0 of an unused channel.
    pub total: Cents,
    /// What the channel holds.
    pub held: Cents,
    /// The deadline of a closing; 0 where nobody is closing.
    pub deadline: Seconds,
    /// What the customer's closing keeps for the customer; 0 outside one.
    pub kept: Cents,
    /// The lock of the customer's closing; zeros outside one.
    pub lock: [u8; DIGEST_SIZE],
}

impl Book {
    /// The reading of channel `n`.
    ///
    /// ```
    /// use finaruvom::{Book, Cents, Refusal, Status};
    ///
    /// let book = Book::open(&[7; 16])?;
    /// let reading = book.read(63)?;
    /// assert_eq!((reading.status, reading.held), (Status::Unused, Cents(0)));
    /// assert_eq!(book.read(64), Err(Refusal::Channel));
    /// # Ok::<(), Refusal>(())
    /// ```
    ///
    /// # Errors
    ///
    /// [`Refusal::Unsound`] of an unsound book, [`Refusal::Channel`] where `n` is 64 or more.
    pub fn read(&self, n: usize) -> Result<Reading, Refusal> {
        // SAFETY: the book is readable.
        let reading = unsafe { raw::finaruvom_read(&raw const self.raw, n) };
        Refusal::checked(reading.refusal)?;
        Ok(Reading {
            status: named(reading.status),
            total: reading.total,
            held: reading.held,
            deadline: reading.deadline,
            kept: reading.kept,
            lock: reading.lock,
        })
    }

    /// Of the channels that are closing, the one with the smallest deadline; of equal deadlines
    /// the one with the larger [`held`](Reading::held) sum, and only then the lower number. None
    /// where no channel is closing, and of an unsound book.
    ///
    /// ```
    /// use finaruvom::{Book, Cents, Refusal, Seconds};
    ///
    /// let book = Book::open(&[7; 16])?;
    /// assert_eq!(book.due(), None);
    ///
    /// // Three merchants close, two of them with one deadline.
    /// let mut raw = book.as_raw().clone();
    /// for (n, held, deadline) in [(1, 1_000, 4_601), (3, 700, 4_600), (5, 900, 4_600)] {
    ///     raw.channels[n].status = 4;
    ///     raw.channels[n].delay = 3_600;
    ///     raw.channels[n].merchant.deposit = Cents(held);
    ///     raw.channels[n].deadline = Seconds(deadline);
    /// }
    /// let book = Book::from_raw(raw);
    /// assert_eq!(book.read(5)?.held, Cents(900));
    /// assert_eq!(book.due(), Some(5));
    /// # Ok::<(), Refusal>(())
    /// ```
    #[must_use]
    pub fn due(&self) -> Option<u8> {
        // SAFETY: the book is readable.
        let found = unsafe { raw::finaruvom_due(&raw const self.raw) };
        found.some.then_some(found.channel)
    }
}
