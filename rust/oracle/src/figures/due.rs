//! The figures of document 02 No. 9 on a book: channels 3 and 5, of 1,000 each, are closing.
use super::parties::ID;
use crate::book::{Book, Channel, LARGEST};
use crate::reading::due;

/// When a closing of the figures is due.
const MONDAY: u64 = 345_600;

/// A channel of this status and total with the deadline, and with this in its kept part.
fn channel(status: u8, total: u64, kept: u64, deadline: u64) -> Channel {
    let mut channel = Channel {
        status,
        delay: 3_600,
        deadline,
        kept,
        ..Channel::UNUSED
    };
    channel.customer.deposit = total - total / 10;
    channel.merchant.deposit = total / 10;
    channel
}

/// A customer's closing of 1,000 that keeps this much.
fn keeps(kept: u64, deadline: u64) -> Channel {
    channel(5, 1_000, kept, deadline)
}

/// A book with these two as channels 3 and 5.
fn book(third: Channel, fifth: Channel) -> Book {
    let mut book = Book::fresh(ID);
    (book.channels[3], book.channels[5]) = (third, fifth);
    book
}

/// Which of the two is due.
fn first(third: Channel, fifth: Channel) -> Option<u8> {
    due(&book(third, fifth))
}

#[test]
fn larger_sum() {
    for (third, fifth, first_due) in [
        (700, 900, 5),
        (900, 700, 3),
        (900, 900, 3),
        (0, 1, 5),
        (1, 0, 3),
        (0, 0, 3),
        (999, 1_000, 5),
        (1_000, 1_000, 3),
    ] {
        let found = first(keeps(third, MONDAY), keeps(fifth, MONDAY));
        assert_eq!(found, Some(first_due), "{third} and {fifth}");
    }
}

/// The deadline comes before the sum, be it by one second.
#[test]
fn smaller_deadline() {
    assert_eq!(first(keeps(700, MONDAY - 1), keeps(900, MONDAY)), Some(3));
    assert_eq!(first(keeps(900, MONDAY + 1), keeps(700, MONDAY)), Some(5));
    assert_eq!(first(keeps(0, MONDAY - 1), keeps(1_000, MONDAY)), Some(3));
    assert_eq!(first(keeps(1_000, MONDAY), keeps(0, MONDAY - 1)), Some(5));
}

/// A merchant's closing holds its total, whatever stands in its kept part.
#[test]
fn merchant_beside_customer() {
    for unused in [0, 999, 1_000, 1_001, LARGEST, u64::MAX] {
        let merchant = channel(4, 1_000, unused, MONDAY);
        assert_eq!(first(keeps(999, MONDAY), merchant), Some(5), "{unused}");
        assert_eq!(first(keeps(1_000, MONDAY), merchant), Some(3), "{unused}");
        assert_eq!(first(merchant, keeps(999, MONDAY)), Some(3), "{unused}");
        assert_eq!(first(merchant, keeps(1_000, MONDAY)), Some(3), "{unused}");
        let larger = channel(5, 2_000, 1_001, MONDAY);
        assert_eq!(first(merchant, larger), Some(5), "{unused}");
        let other = channel(4, 1_001, 0, MONDAY);
        assert_eq!(first(merchant, other), Some(5), "{unused}");
        assert_eq!(first(other, merchant), Some(3), "{unused}");
    }
}

#[test]
fn largest_sum() {
    let merchant = channel(4, LARGEST, 0, MONDAY);
    let customer = |kept| channel(5, LARGEST, kept, MONDAY);
    assert_eq!(first(customer(LARGEST - 1), merchant), Some(5));
    assert_eq!(first(customer(LARGEST), merchant), Some(3));
    assert_eq!(first(customer(LARGEST - 1), customer(LARGEST)), Some(5));
    assert_eq!(first(keeps(1_000, MONDAY), customer(1)), Some(3));
    assert_eq!(first(keeps(1_000, MONDAY), merchant), Some(5));
}

#[test]
fn unsound() {
    let sound = book(keeps(700, MONDAY), keeps(900, MONDAY));
    let changes: [fn(&mut Book); 5] = [
        |book| book.marked = false,
        |book| book.clock = LARGEST + 1,
        |book| book.rate = 1_001,
        |book| book.channels[63].status = 7,
        |book| book.channels[3].kept = 1_001,
    ];
    for (number, change) in changes.into_iter().enumerate() {
        let mut book = sound.clone();
        assert_eq!(due(&book), Some(5));
        change(&mut book);
        assert_eq!(due(&book), None, "{number}");
    }
}

/// The whole due list, of the largest sum first among equal deadlines.
#[test]
fn in_order() {
    let mut book = book(keeps(700, MONDAY), keeps(900, MONDAY));
    book.channels[0] = keeps(1_000, MONDAY + 1);
    book.channels[1] = keeps(700, MONDAY);
    book.channels[62] = channel(4, 1_000, 0, MONDAY);
    book.channels[63] = keeps(0, MONDAY - 1);
    for expected in [63, 62, 5, 1, 3, 0] {
        assert_eq!(due(&book), Some(expected));
        book.channels[usize::from(expected)].status = 6;
    }
    assert_eq!(due(&book), None);
}
