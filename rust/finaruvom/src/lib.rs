//! The channel arbiter, proved: a safe wrapper around the archive that `tools/made finaruvom`
//! makes.
//!
//! A customer, as a café, and a merchant, as its bakery, or one of them alone, pay deposits into a
//! channel of a [`Book`]. Commands, each a string of bytes that [`command`] makes, establish, fund,
//! close, dispute and settle it. Every command gets an [`Answer`]. Of each payment to the merchant
//! the desk keeps the fee that the book was opened with, and in a book that was opened with a list
//! of dates no deadline falls on one of these or on a weekend.
//!
//! ```
//! use finaruvom::command::{SetClock, Settle};
//! use finaruvom::{Book, Cents, Payments, Refusal, Seconds};
//!
//! let mut book = Book::open(&[0; 16])?;
//! let nothing = Payments { customer: Cents(0), merchant: Cents(0), fee: Cents(0) };
//! let answer = book.apply(&SetClock { time: Seconds(1_000) }.command());
//! assert_eq!(answer.paid(), Ok(nothing));
//! assert_eq!(book.clock(), Seconds(1_000));
//!
//! // Channel 0 is unused.
//! let answer = book.apply(&Settle { channel: 0 }.command());
//! assert_eq!(answer.paid(), Err(Refusal::Status));
//! # Ok::<(), Refusal>(())
//! ```
//!
//! `examples/life.rs` goes through the life of three channels, with real signatures;
//! `examples/explain` tells a journal in words.
//!
//! What a run paid goes to the bank by [`bank`]: as a list of payments, and as entries of packed
//! decimal.
//!
//! A till's half is the [`Signer`], which signs each message with a leaf of its own.
//!
//! The crate does without the standard library and allocates nothing but the memory of a signer. A
//! program without the standard library brings an allocator, and one that has no C library `memcpy`
//! and `memset` for the archive. Where the program is optimised, 256 KiB of stack are enough for
//! making a key and for signing, and 96 KiB for every other call, the book that it makes included.
#![no_std]
#![deny(missing_docs)]

extern crate alloc;

#[cfg(not(all(
    target_arch = "x86_64",
    target_os = "linux",
    target_pointer_width = "64"
)))]
compile_error!("libfinaruvom.a is made for x86-64 Linux alone");

mod answer;
pub mod bank;
mod book;
pub mod command;
mod date;
mod journal;
mod linked;
mod numbered;
pub mod raw;
mod reading;
mod refusal;
mod settings;
mod signature;
mod signer;
mod sizes;
mod stored;
mod units;

pub use answer::{Answer, Payments};
pub use book::Book;
pub use date::{Date, Weekday};
pub use journal::{Cause, Line, Ran};
pub use linked::version;
pub use numbered::UnknownNumber;
pub use raw::Versions;
pub use reading::{Reading, Status};
pub use refusal::Refusal;
pub use settings::Settings;
pub use signature::{check, hash, Verdict};
pub use signer::Signer;
pub use sizes::{
    BOOK_SIZE, CHANNELS, DAYS, DESK_DELAY, DIGEST_SIZE, ENTRY_SIZE, HIGHEST_FEE, ID_SIZE, KEY_SIZE,
    LARGEST_AMOUNT, LAYOUT, LEAVES, LONGEST_DELAY, LONGEST_MESSAGE, MOST_DATES, NODES, NONCE_SIZE,
    PLAIN_DELAY, SEED_SIZE, SHORTEST_DELAY, SIGNATURE_SIZE, SIGNER_SIZE,
};
pub use units::{Cents, Seconds};
