//! Document 01, document 02 No. 1, 2, 5 and 7 to 9 where these say otherwise, and its No. 4 and 6,
//! in plain Rust, written from the papers alone, to compare the library with.

pub mod bank;
mod book;
mod calendar;
mod check;
mod command;
mod fee;
mod journal;
mod machine;
mod one_time;
mod reading;
mod rules;
mod sha256;
mod shut;
mod signer;
mod till;
mod tree;

#[cfg(test)]
mod figures;
#[cfg(test)]
mod vectors;

pub use book::{
    Book, Channel, Party, Remembered, CHANNELS, DELAYS, DESK_DEFAULT, HIGHEST_RATE, LARGEST,
    LONGEST_DELAY, PLAIN_DEFAULT, PLAIN_RATE, SHORTEST_DELAY,
};
pub use calendar::{Date, Weekday, DAY, DAYS};
pub use check::{check, Verdict, SIGNATURE, TYPES};
pub use command::{length, Command, Order};
pub use fee::fee;
pub use journal::{run, statement, Ran};
pub use machine::{apply, noes, Answer};
pub use one_time::Place;
pub use reading::{due, read, Reading};
pub use sha256::{digest, hash, Digest};
pub use shut::{Shut, MOST_DATES};
pub use signer::Signer;
pub use till::{Signed, Till, LEAVES};
