//! What can be read of a book: a channel, and which one is due.
use crate::book::{Book, Channel};
use std::cmp::Reverse;

/// The reading of a channel.
#[derive(Clone, Copy, Debug, Default, PartialEq, Eq)]
pub struct Reading {
    /// 0, or why there is none.
    pub refusal: u8,
    /// The status.
    pub status: u8,
    /// T.
    pub total: u64,
    /// Cents held.
    pub held: u64,
    /// The deadline; 0 outside 4 and 5.
    pub deadline: u64,
    /// The closing's customer part; 0 outside 5.
    pub kept: u64,
    /// The closing's lock; zeros outside 5.
    pub lock: [u8; 32],
}

/// Reads channel `n`.
pub fn read(book: &Book, n: usize) -> Reading {
    let refused = |refusal| Reading {
        refusal,
        ..Reading::default()
    };
    match book.channels.get(n) {
        _ if !book.sound() => refused(99),
        None => refused(4),
        Some(channel) => reading(channel),
    }
}

/// The reading of a channel of a sound book.
fn reading(channel: &Channel) -> Reading {
    let status = channel.status;
    let total = match status {
        0 => 0,
        _ => channel.customer.deposit + channel.merchant.deposit,
    };
    let held = match status {
        2 => channel.customer.deposit,
        3 | 4 => total,
        5 => channel.kept,
        _ => 0,
    };
    Reading {
        refusal: 0,
        status,
        total,
        held,
        deadline: if matches!(status, 4 | 5) {
            channel.deadline
        } else {
            0
        },
        kept: if status == 5 { channel.kept } else { 0 },
        lock: if status == 5 { channel.lock } else { [0; 32] },
    }
}

/// Of the channels in status 4 or 5, the one with the smallest deadline; by document 02 No. 9 the
/// one with the larger held sum where equal, and only then the lower number.
pub fn due(book: &Book) -> Option<u8> {
    if !book.sound() {
        return None;
    }
    let closing = (0u8..)
        .zip(&book.channels)
        .filter(|(_, channel)| matches!(channel.status, 4 | 5));
    closing
        .min_by_key(|(n, channel)| (channel.deadline, Reverse(reading(channel).held), *n))
        .map(|(n, _)| n)
}
