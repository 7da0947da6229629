//! What the archive exports, as `include/finaruvom.h` declares it. The header says what a caller
//! owes; the functions of the crate itself take care of that.

mod calls;
mod layout;

use crate::sizes::{
    CHANNELS, DIGEST_SIZE, ID_SIZE, KEY_SIZE, MOST_DATES, NODES, SEED_SIZE, SIGNATURE_SIZE,
};
use crate::units::{Cents, Seconds};

pub use calls::*;

/// One side of a channel.
#[repr(C)]
#[derive(Clone, Copy, Debug, PartialEq, Eq, Hash)]
pub struct Party {
    /// The LMS key: type, one-time type, identifier and root.
    pub key: [u8; KEY_SIZE],
    /// The deposit agreed.
    pub deposit: Cents,
}

/// The merchant's leaves that a channel remembers, both the same where there is only one.
///
/// They are read in statuses 4 and 5 alone, in 4 only the first: anything may stand there in other
/// statuses.
#[repr(C)]
#[derive(Clone, Copy, Debug, PartialEq, Eq, Hash)]
pub struct Leaves {
    /// That of the 08, or of the 07 where there was no 08.
    pub first: u32,
    /// That of the 07; before it, that of the 08.
    pub second: u32,
}

/// A channel as the book stores it.
#[repr(C)]
#[derive(Clone, Copy, Debug, PartialEq, Eq, Hash)]
pub struct Channel {
    /// The customer.
    pub customer: Party,
    /// The merchant.
    pub merchant: Party,
    /// The clock's second from which a closing may be settled.
    pub deadline: Seconds,
    /// What a customer's closing keeps for the customer.
    pub kept: Cents,
    /// Seconds from a closing to its deadline.
    pub delay: u32,
    /// The number of a [`Status`](crate::Status), in a sound book.
    pub status: u32,
    /// The SHA-256 of the secret that wins a dispute.
    pub lock: [u8; DIGEST_SIZE],
    /// The leaves that no dispute may use again.
    pub leaves: Leaves,
}

/// What a book keeps of its opening.
///
/// The days are strictly rising and below [`DAYS`](crate::DAYS) in a sound book, as far as they are
/// counted, whether there is a list or not: anything may stand behind them.
#[repr(C)]
#[derive(Clone, Copy, Debug, PartialEq, Eq, Hash)]
pub struct Setup {
    /// The default delay in seconds, which a 0 in command 02 stands for.
    pub delay: u32,
    /// The fee, in ten-thousandths of each payment to a merchant.
    pub fee: u32,
    /// The shut dates, as days from 1970-01-01.
    pub days: [u32; MOST_DATES],
    /// How many of them there are, at most [`MOST_DATES`] in a sound book.
    pub count: u32,
    /// 1 where the opening was given a list of dates, 0 where not: then no day is shut.
    pub dated: u32,
}

/// A book as it is stored. Any values may stand in it: an unsound one is refused with 99.
///
/// A second one is made by `clone` alone. This does not compile:
///
/// ```compile_fail,E0507
/// let book = finaruvom::Book::open(&[7; 16]).unwrap();
/// let raw = *book.as_raw();
/// ```
#[repr(C)]
#[derive(Clone, Debug, PartialEq, Eq, Hash)]
pub struct Book {
    /// What every opening writes; whoever copies a book copies it. It carries the layout.
    pub mark: u64,
    /// The book id, a part of every signed message.
    pub id: [u8; ID_SIZE],
    /// What the book keeps of its opening.
    pub setup: Setup,
    /// The clock.
    pub clock: Seconds,
    /// Channels 0 to 63, each used once.
    pub channels: [Channel; CHANNELS],
}

/// What an opening is given beside its dates. It is the one struct with padding, three bytes behind
/// the last field.
#[must_use]
#[repr(C)]
#[derive(Clone, Copy, Debug, PartialEq, Eq, Hash)]
pub struct Settings {
    /// The default delay, 3,600 to 2,592,000.
    pub delay: u32,
    /// The fee in ten-thousandths, at most 1,000.
    pub fee: u32,
    /// Whether there is a list of dates.
    pub dated: bool,
}

/// What a command answers.
#[must_use = "a dropped answer is a lost payment"]
#[repr(C)]
#[derive(Clone, Copy, Debug, Default, PartialEq, Eq, Hash)]
pub struct Answer {
    /// Paid to the customer.
    pub customer: Cents,
    /// Paid to the merchant, without the fee.
    pub merchant: Cents,
    /// Chain steps of the signature checks made.
    pub steps: u32,
    /// The refusal's number, or 0.
    pub refusal: u32,
    /// What the desk keeps of the payment to the merchant.
    pub fee: Cents,
}

/// A line of a run: the answer to one command.
#[repr(C)]
#[derive(Clone, Copy, Debug, Default, PartialEq, Eq, Hash)]
pub struct Line {
    /// The command's answer.
    pub answer: Answer,
}

/// What a reading of a channel gives.
#[must_use]
#[repr(C)]
#[derive(Clone, Copy, Debug, Default, PartialEq, Eq, Hash)]
pub struct Reading {
    /// The two agreed deposits together.
    pub total: Cents,
    /// What the channel holds.
    pub held: Cents,
    /// The closing's deadline; 0 where nobody is closing.
    pub deadline: Seconds,
    /// What the customer's closing keeps; 0 outside one.
    pub kept: Cents,
    /// 0; 99 for an unsound book and 4 for a channel from 64 on, both with zeros.
    pub refusal: u32,
    /// The number of the channel's [`Status`](crate::Status).
    pub status: u32,
    /// The lock of the customer's closing; zeros outside one.
    pub lock: [u8; DIGEST_SIZE],
}

/// The channel that is due next, if any.
#[must_use]
#[repr(C)]
#[derive(Clone, Copy, Debug, Default, PartialEq, Eq, Hash)]
pub struct Found {
    /// Whether there is one.
    pub some: bool,
    /// Its number; 0 where there is none.
    pub channel: u8,
}

/// How far a run came.
#[must_use]
#[repr(C)]
#[derive(Clone, Copy, Debug, Default, PartialEq, Eq, Hash)]
pub struct Ran {
    /// Lines written.
    pub lines: usize,
    /// Bytes used.
    pub used: usize,
    /// The number of a [`Cause`](crate::Cause).
    pub cause: u64,
}

/// A payment of a list. Any numbers may stand in it.
#[repr(C)]
#[derive(Clone, Copy, Debug, Default, PartialEq, Eq, Hash)]
pub struct Payment {
    /// The number of a [`Payee`](crate::bank::Payee), where it can be written.
    pub party: u64,
    /// The channel n.
    pub channel: u64,
    /// What is paid.
    pub amount: Cents,
}

/// What collecting, writing and reading payments answer.
#[must_use]
#[repr(C)]
#[derive(Clone, Copy, Debug, Default, PartialEq, Eq, Hash)]
pub struct Counted {
    /// The refusal's number, or 0.
    pub refusal: u64,
    /// How many payments; 0 where it was refused.
    pub payments: usize,
}

/// A version of the library, and the layout of its books.
#[must_use]
#[repr(C)]
#[derive(Clone, Copy, Debug, Default, PartialEq, Eq, Hash)]
pub struct Versions {
    /// Major.
    pub major: u32,
    /// Minor.
    pub minor: u32,
    /// Patch.
    pub patch: u32,
    /// The layout, as [`LAYOUT`](crate::LAYOUT).
    pub layout: u32,
}

/// A node of a signer's tree.
#[repr(C)]
#[derive(Clone, Copy, Debug, PartialEq, Eq, Hash)]
pub struct Node {
    /// Its digest.
    pub value: [u8; DIGEST_SIZE],
}

/// A till's key as it is stored. Any values may stand in it.
///
/// A copy signs with the same leaves, so there is no `clone`. This does not compile:
///
/// ```compile_fail,E0599
/// fn second(signer: &finaruvom::raw::Signer) -> finaruvom::raw::Signer {
///     finaruvom::raw::Signer::clone(signer)
/// }
/// ```
#[repr(C)]
pub struct Signer {
    /// The public key: type, one-time type, identifier and root.
    pub key: [u8; KEY_SIZE],
    /// The private key.
    pub seed: [u8; SEED_SIZE],
    /// The leaf that signs next; from [`LEAVES`](crate::LEAVES) on none does.
    pub next: u32,
    /// Node r at place r: the root at 1, the leaves from [`LEAVES`](crate::LEAVES) on, zeros at 0.
    pub nodes: [Node; NODES],
}

/// What a signing answers.
#[must_use = "a dropped signature has used its leaf"]
#[repr(C)]
#[derive(Clone, Copy, Debug, PartialEq, Eq, Hash)]
pub struct Signature {
    /// The refusal's number, or 0.
    pub refusal: u32,
    /// The signature; zeros where it was refused.
    pub bytes: [u8; SIGNATURE_SIZE],
}
