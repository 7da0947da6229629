//! The paper's figures of reading.
use crate::{payment, FORMER};
use finaruvom::bank::{read, Payee};
use finaruvom::{Refusal, LARGEST_AMOUNT};

/// 12,345 cents to the customer of channel 3.
const ENTRY: [u8; 11] = [1, 0, 3, 0, 0, 0, 0, 0, 0x12, 0x34, 0x5c];

/// Asserts that a reading into so many entries is refused, and that the list keeps them.
fn refused(bytes: &[u8], room: usize, refusal: Refusal) {
    let mut list = vec![FORMER; room];
    assert_eq!(read(bytes, &mut list), Err(refusal), "{bytes:x?} {room}");
    assert_eq!(list, vec![FORMER; room]);
}

/// Asserts that an entry is refused wherever it stands, and otherwise nothing.
fn wrong(entry: [u8; 11]) {
    for place in 0..3 {
        let mut entries = [ENTRY; 3];
        entries[place] = entry;
        refused(entries.as_flattened(), 3, Refusal::Entry);
        refused(entries.as_flattened(), 4, Refusal::Entry);
        // 18 comes before 19.
        refused(entries.as_flattened(), 2, Refusal::Room);
        refused(&entries.as_flattened()[..32], 3, Refusal::Room);
    }
}

/// The entry with another byte at this place.
fn with(at: usize, byte: u8) -> [u8; 11] {
    let mut entry = ENTRY;
    entry[at] = byte;
    entry
}

#[test]
fn entries() {
    let mut list = [FORMER; 4];
    let largest = [2, 0, 63, 0x99, 0x99, 0x99, 0x99, 0x99, 0x99, 0x99, 0x9c];
    let bytes = [ENTRY, largest, with(10, 0x0c)].concat();
    assert_eq!(read(&bytes, &mut list), Ok(3));
    let expected = [
        payment(Payee::Customer, 3, 12_345),
        payment(Payee::Merchant, 63, LARGEST_AMOUNT.0),
        payment(Payee::Customer, 3, 12_340),
        FORMER,
    ];
    assert_eq!(list, expected);
}

#[test]
fn other_parties_and_channels() {
    for party in (0..=u8::MAX).filter(|party| ![1, 2].contains(party)) {
        wrong(with(0, party));
    }
    (1..=u8::MAX).for_each(|high| wrong(with(1, high)));
    (64..=u8::MAX).for_each(|low| wrong(with(2, low)));
}

/// The entry with another half byte, the place counted from the first digit.
fn with_half(place: usize, half: u8) -> [u8; 11] {
    let at = 3 + place / 2;
    match place % 2 {
        0 => with(at, half << 4 | ENTRY[at] & 0x0f),
        _ => with(at, ENTRY[at] & 0xf0 | half),
    }
}

#[test]
fn other_half_bytes() {
    for half in 0xa..=0xf {
        (0..15).for_each(|place| wrong(with_half(place, half)));
    }
    let others = (0..=0xf).filter(|half| *half != 0xc);
    others.for_each(|half| wrong(with_half(15, half)));
}

#[test]
fn no_amount() {
    wrong([1, 0, 3, 0, 0, 0, 0, 0, 0, 0, 0x0c]);
    wrong([0; 11]);
}

#[test]
fn lengths() {
    let bytes = [ENTRY; 3].concat();
    for length in (0..=33).filter(|length| length % 11 != 0) {
        refused(&bytes[..length], 4, Refusal::Room);
    }
    for (length, room) in [(11, 0), (22, 0), (22, 1), (33, 0), (33, 2)] {
        refused(&bytes[..length], room, Refusal::Room);
    }
}

#[test]
fn nothing() {
    assert_eq!(read(&[], &mut []), Ok(0));
    let mut list = [FORMER; 2];
    assert_eq!(read(&[], &mut list), Ok(0));
    assert_eq!(list, [FORMER; 2]);
}
