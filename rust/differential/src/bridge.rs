//! The library's values as the oracle's and back, field by field.

pub mod bank;

use finaruvom::raw::{self, Leaves, Party};
use finaruvom::{Book, Cents, Payments, Refusal, Seconds, Status, SIGNATURE_SIZE};
use oracle::{Remembered, Shut, MOST_DATES};
use std::sync::OnceLock;

/// The oracle's status of a channel whose own status the oracle cannot hold. It is none of the
/// paper's.
const OTHER: u8 = u8::MAX;

/// The mark that every opening writes.
pub fn mark() -> u64 {
    static MARK: OnceLock<u64> = OnceLock::new();
    *MARK.get_or_init(|| {
        Book::open(&[0; 16])
            .expect("16 bytes are an id")
            .as_raw()
            .mark
    })
}

/// The oracle's book with the same values, as far as it can hold them.
pub fn to_oracle(raw: &raw::Book) -> oracle::Book {
    let party = |party: &Party| oracle::Party {
        key: party.key,
        deposit: party.deposit.0,
    };
    oracle::Book {
        marked: raw.mark == mark(),
        id: raw.id,
        default_delay: raw.setup.delay,
        rate: raw.setup.fee,
        shut: to_shut(&raw.setup),
        clock: raw.clock.0,
        channels: raw.channels.map(|channel| oracle::Channel {
            status: u8::try_from(channel.status).unwrap_or(OTHER),
            customer: party(&channel.customer),
            merchant: party(&channel.merchant),
            delay: channel.delay,
            deadline: channel.deadline.0,
            kept: channel.kept.0,
            lock: channel.lock,
            remembered: to_remembered(&channel),
        }),
    }
}

/// What the oracle shuts: the days that are counted, or more than any list has where the count is
/// above 64.
fn to_shut(setup: &raw::Setup) -> Shut {
    let counted = setup.days.get(..setup.count as usize);
    Shut {
        listed: setup.dated,
        days: counted.map_or(vec![0; MOST_DATES + 1], <[u32]>::to_vec),
    }
}

/// The library's setup for a book of the oracle's that had this one before. A count above 64, and
/// the days that are not counted, stay.
fn to_setup(book: &oracle::Book, before: &raw::Setup) -> raw::Setup {
    let Shut { listed, days } = &book.shut;
    let mut setup = raw::Setup {
        delay: book.default_delay,
        fee: book.rate,
        dated: *listed,
        ..*before
    };
    if let Some(counted) = setup.days.get_mut(..days.len()) {
        counted.copy_from_slice(days);
        setup.count = days.len() as u32;
    }
    setup
}

/// What the oracle remembers for a channel: nothing where nobody is closing, the leaf of the 08 in
/// status 4, both in 5.
fn to_remembered(channel: &raw::Channel) -> Remembered {
    let Leaves { first, second } = channel.leaves;
    Remembered {
        in_08: matches!(channel.status, 4 | 5).then_some(first),
        in_07: (channel.status == 5).then_some(second),
    }
}

/// The library's leaves for what the oracle remembers of a channel that was this one before. A leaf
/// that is the only one was written to both places; what is not remembered stays.
fn to_leaves(remembered: Remembered, before: &raw::Channel) -> Leaves {
    let [first, second] = match (remembered.in_08, remembered.in_07) {
        (None, None) => return before.leaves,
        (None, Some(leaf)) => [leaf, leaf],
        (Some(leaf), None) if before.status < 4 => [leaf, leaf],
        (Some(leaf), None) => [leaf, before.leaves.second],
        (Some(first), Some(second)) => [first, second],
    };
    Leaves { first, second }
}

/// The same book with the leaves and days that an opening writes where there are none, whatever
/// stood there: zeros.
pub fn forgetting(book: &raw::Book) -> raw::Book {
    let mut book = book.clone();
    book.setup.days = [0; MOST_DATES];
    for channel in &mut book.channels {
        channel.leaves = Leaves {
            first: 0,
            second: 0,
        };
    }
    book
}

/// The library's book with the same values. A mark, a status or a count that the oracle cannot hold
/// is the one before: only an opening changes it. So are leaves that are not remembered, and days
/// that are not counted.
pub fn to_raw(book: &oracle::Book, before: &raw::Book) -> raw::Book {
    let party = |party: &oracle::Party| Party {
        key: party.key,
        deposit: Cents(party.deposit),
    };
    let channel = |n: usize| {
        let channel = &book.channels[n];
        raw::Channel {
            status: match channel.status {
                OTHER => before.channels[n].status,
                status => u32::from(status),
            },
            customer: party(&channel.customer),
            merchant: party(&channel.merchant),
            delay: channel.delay,
            deadline: Seconds(channel.deadline),
            kept: Cents(channel.kept),
            lock: channel.lock,
            leaves: to_leaves(channel.remembered, &before.channels[n]),
        }
    };
    raw::Book {
        mark: if book.marked { mark() } else { before.mark },
        id: book.id,
        setup: to_setup(book, &before.setup),
        clock: Seconds(book.clock),
        channels: std::array::from_fn(channel),
    }
}

/// The library's answer with the same values.
pub fn to_answer(answer: &oracle::Answer) -> raw::Answer {
    raw::Answer {
        refusal: u32::from(answer.refusal),
        customer: Cents(answer.customer),
        merchant: Cents(answer.merchant),
        steps: answer.steps,
        fee: Cents(answer.fee),
    }
}

/// The library's line with the same values.
pub fn to_line(answer: &oracle::Answer) -> raw::Line {
    raw::Line {
        answer: to_answer(answer),
    }
}

/// The library's reading with the same values.
pub fn to_reading(reading: &oracle::Reading) -> raw::Reading {
    raw::Reading {
        refusal: u32::from(reading.refusal),
        status: u32::from(reading.status),
        total: Cents(reading.total),
        held: Cents(reading.held),
        deadline: Seconds(reading.deadline),
        kept: Cents(reading.kept),
        lock: reading.lock,
    }
}

/// What the wrapper makes of the answer.
pub fn to_paid(answer: &oracle::Answer) -> Result<Payments, Refusal> {
    checked(answer.refusal)?;
    Ok(Payments {
        customer: Cents(answer.customer),
        merchant: Cents(answer.merchant),
        fee: Cents(answer.fee),
    })
}

/// What the wrapper makes of the reading.
pub fn to_read(reading: &oracle::Reading) -> Result<finaruvom::Reading, Refusal> {
    checked(reading.refusal)?;
    Ok(finaruvom::Reading {
        status: Status::try_from(reading.status).expect("a status of the paper"),
        total: Cents(reading.total),
        held: Cents(reading.held),
        deadline: Seconds(reading.deadline),
        kept: Cents(reading.kept),
        lock: reading.lock,
    })
}

/// Nothing for 0, else the refusal with this number.
fn checked(refusal: u8) -> Result<(), Refusal> {
    match refusal {
        0 => Ok(()),
        _ => Err(Refusal::try_from(refusal).expect("a refusal of the paper")),
    }
}

/// The bytes of the library's signer with the same values, each at its place.
pub fn to_signer(till: &oracle::Till) -> Vec<u8> {
    let next = till.next.to_le_bytes();
    let nodes = till.nodes.as_flattened();
    [&till.key[..], &till.seed, &next, nodes].concat()
}

/// The library's signature with the same values.
pub fn to_signature(signed: &oracle::Signed) -> raw::Signature {
    raw::Signature {
        refusal: u32::from(signed.refusal),
        bytes: signed.signature,
    }
}

/// What the wrapper makes of the signature.
pub fn to_signed(signed: &oracle::Signed) -> Result<[u8; SIGNATURE_SIZE], Refusal> {
    checked(signed.refusal)?;
    Ok(signed.signature)
}

/// The library's end of a run with the same values.
pub fn to_ran(ran: &oracle::Ran) -> raw::Ran {
    raw::Ran {
        lines: ran.lines,
        used: ran.used,
        cause: u64::from(ran.cause),
    }
}
