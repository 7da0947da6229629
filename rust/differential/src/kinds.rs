//! Commands and books that come up by design alone.

pub mod bank;
pub mod days;
pub mod due;
pub mod fees;
pub mod leaves;
pub mod lists;
pub mod openings;
pub mod signers;

use crate::wallet::bits_apart;
use oracle::{digest, Book, Shut, HIGHEST_RATE, PLAIN_DEFAULT, PLAIN_RATE, TYPES};

/// The kinds that every run must meet.
pub const KINDS: [&str; 19] = [
    EQUAL,
    IDENTIFIERS,
    ROOTS,
    DEFAULT_READ,
    NO_DEPOSIT,
    NO_FUNDING,
    LOCK_START,
    LOCK_MIDDLE,
    LOCK_END,
    FILED,
    OPENED,
    RECLAIMED,
    CLOSED,
    DISPUTED,
    SETTLED,
    DEFAULT_UNSOUND,
    FEE_UNSOUND,
    LARGEST_FEE_UNSOUND,
    LIST_UNSOUND,
];

const EQUAL: &str = "02 refused for equal keys";
const IDENTIFIERS: &str = "02 accepted with identifiers one bit apart";
const ROOTS: &str = "02 accepted with roots one bit apart";
const DEFAULT_READ: &str = "02 accepted with a delay of 0 and another default than the plain one";
const NO_DEPOSIT: &str = "02 refused for deposits of 0 and 0";
const NO_FUNDING: &str = "03 of 0 refused where the customer deposits nothing";
const LOCK_START: &str = "09 refused for a bit in the lock's first byte";
const LOCK_MIDDLE: &str = "09 refused for a bit between";
const LOCK_END: &str = "09 refused for a bit in the lock's last byte";

/// A lock that a 07 of the same journal filed.
pub const FILED: &str = "09 refused for a bit of the lock in its 07";

/// What became of an account that only the merchant funds.
const OPENED: &str = "04 accepted where the customer deposits nothing";
const RECLAIMED: &str = "05 accepted where the customer deposits nothing";
const CLOSED: &str = "06 accepted where the customer deposits nothing";
const DISPUTED: &str = "09 accepted where the customer deposits nothing";
const SETTLED: &str = "0A accepted where the customer deposits nothing";

/// Books that would be sound with the plain default, the plain fee, or without a list.
const DEFAULT_UNSOUND: &str = "books unsound by their default alone";
const FEE_UNSOUND: &str = "books unsound by a fee of 1,001 alone";
const LARGEST_FEE_UNSOUND: &str = "books unsound by a fee of 2^32 - 1 alone";
const LIST_UNSOUND: &str = "books unsound by their list alone";

/// The kind of a book by its soundness.
pub fn soundness(book: &Book) -> &'static str {
    let sound_with = |change: fn(&mut Book)| {
        let mut changed = book.clone();
        change(&mut changed);
        changed.sound()
    };
    match book.rate {
        _ if book.sound() => "sound books",
        _ if sound_with(|book| book.default_delay = PLAIN_DEFAULT) => DEFAULT_UNSOUND,
        _ if sound_with(|book| book.shut = Shut::NONE) => LIST_UNSOUND,
        _ if !sound_with(|book| book.rate = PLAIN_RATE) => "unsound books",
        rate if rate == HIGHEST_RATE + 1 => FEE_UNSOUND,
        u32::MAX => LARGEST_FEE_UNSOUND,
        _ => "books unsound by another fee alone",
    }
}

/// The kind of a command with this answer, if it is one of them.
pub fn kind(book: &Book, command: &[u8], refusal: u8) -> Option<&'static str> {
    match (command, refusal) {
        ([0x02, _, _, operands @ ..], 0 | 6) => {
            let rest = default_read(book, &operands[128..], refusal);
            keys(&operands[..56], &operands[56..112]).or(rest)
        }
        ([0x02, _, _, operands @ ..], 8) => (operands[112..128] == [0; 16]).then_some(NO_DEPOSIT),
        ([0x03, _, low, cents @ ..], 5) => {
            let channel = &book.channels[usize::from(*low)];
            let nothing = channel.status == 2 && channel.customer.deposit == 0;
            (nothing && cents == [0; 8]).then_some(NO_FUNDING)
        }
        ([0x09, _, low, operands @ ..], 10) => {
            let lock = &book.channels[usize::from(*low)].lock;
            secret(&operands[..32], lock)
        }
        _ => None,
    }
}

/// The kind of an accepted command to an account that only the merchant funds, if it is one of
/// them.
pub fn credit(book: &Book, command: &[u8]) -> Option<&'static str> {
    let [opcode @ 0x02..=0x0a, _, low, ..] = command else {
        return None;
    };
    let deposit = book.channels[usize::from(*low)].customer.deposit;
    match opcode {
        _ if deposit > 0 => None,
        0x04 => Some(OPENED),
        0x05 => Some(RECLAIMED),
        0x06 => Some(CLOSED),
        0x09 => Some(DISPUTED),
        0x0a => Some(SETTLED),
        _ => None,
    }
}

/// Keys of the right types that are equal, or but for one bit.
fn keys(customer: &[u8], merchant: &[u8]) -> Option<&'static str> {
    let apart = |from: usize, to: usize| bits_apart(&customer[from..to], &merchant[from..to]);
    let typed = [customer, merchant].map(|key| key[..8] == TYPES);
    match (typed, apart(8, 24), apart(24, 56)) {
        ([true, true], 0, 0) => Some(EQUAL),
        ([true, true], 1, 0) => Some(IDENTIFIERS),
        ([true, true], 0, 1) => Some(ROOTS),
        _ => None,
    }
}

/// A delay of 0 that stands for another default than the plain one.
fn default_read(book: &Book, delay: &[u8], refusal: u8) -> Option<&'static str> {
    let read = refusal == 0 && delay == [0; 4] && book.default_delay != PLAIN_DEFAULT;
    read.then_some(DEFAULT_READ)
}

/// A secret whose hash is the lock but for one bit.
fn secret(secret: &[u8], lock: &[u8]) -> Option<&'static str> {
    let hash = digest(secret);
    match bits_apart(&hash, lock) {
        1 if hash[0] != lock[0] => Some(LOCK_START),
        1 if hash[31] != lock[31] => Some(LOCK_END),
        1 => Some(LOCK_MIDDLE),
        _ => None,
    }
}
