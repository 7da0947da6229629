//! Document 02 No. 9: equal deadlines, larger sum first. Channels 3 and 5, of 1,000 each, are
//! closing.
use crate::desk::{paid, plan, Desk};
use finaruvom::raw::{self, finaruvom_due, Answer, Channel, Found};
use finaruvom::{Book, Cents, Seconds};

/// The largest total.
const LARGEST: u64 = (1 << 63) - 1;
/// When a closing on a lent book is due.
const MONDAY: u64 = 345_600;

/// What is due, which the library's own call says too.
fn due(book: &Book) -> Option<u8> {
    let due = book.due();
    let found = Found {
        some: due.is_some(),
        channel: due.unwrap_or(0),
    };
    // SAFETY: the book is readable.
    assert_eq!(unsafe { finaruvom_due(book.as_raw()) }, found);
    due
}

/// Gives the command with these numbers to a channel; the answer comes without its chain steps.
fn give(desk: &mut Desk, n: u16, opcode: u8, numbers: [u64; 2]) -> Answer {
    let mut plan = plan(opcode, numbers);
    (plan.n, plan.signed.2) = (n, n);
    let answer = desk.file(&plan);
    Answer { steps: 0, ..answer }
}

/// A desk in which both channels are open, at clock 1,000.
fn open() -> Desk {
    let mut desk = Desk::new();
    for n in [3, 5] {
        for (opcode, numbers) in [(0x02, [900, 100]), (0x03, [900, 0]), (0x04, [100, 0])] {
            assert_eq!(give(&mut desk, n, opcode, numbers), paid(0, 0));
        }
    }
    desk
}

/// The customer closes a channel and keeps this much.
fn close(desk: &mut Desk, n: u16, kept: u64) {
    let merchant = 1_000 - kept;
    let answer = give(desk, n, 0x07, [kept, merchant]);
    assert_eq!(answer, paid(0, merchant));
}

/// A desk in which the customers close both channels at one clock and keep this much.
fn kept(third: u64, fifth: u64) -> Desk {
    let mut desk = open();
    close(&mut desk, 3, third);
    close(&mut desk, 5, fifth);
    desk
}

#[test]
fn larger_sum() {
    for (third, fifth, first) in [
        (700, 900, 5),
        (900, 700, 3),
        (900, 900, 3),
        (0, 1, 5),
        (1, 0, 3),
        (0, 0, 3),
        (999, 1_000, 5),
    ] {
        let found = due(&kept(third, fifth).book);
        assert_eq!(found, Some(first), "{third} and {fifth}");
    }
}

/// The deadline comes before the sum, be it by one second.
#[test]
fn smaller_deadline() {
    let mut desk = open();
    close(&mut desk, 3, 700);
    let mut desk = desk.at(1_001);
    close(&mut desk, 5, 900);
    assert_eq!(due(&desk.book), Some(3));

    let mut desk = open();
    close(&mut desk, 5, 700);
    let mut desk = desk.at(1_001);
    close(&mut desk, 3, 900);
    assert_eq!(due(&desk.book), Some(5));
}

/// A merchant's closing holds the total. An answer to it keeps less, with the same deadline.
#[test]
fn merchant_beside_customer() {
    for (third, first) in [(999, 5), (1_000, 3)] {
        let mut desk = open();
        close(&mut desk, 3, third);
        assert_eq!(give(&mut desk, 5, 0x08, [0, 0]), paid(0, 0));
        assert_eq!(due(&desk.book), Some(first), "{third}");
    }
    let mut desk = open();
    assert_eq!(give(&mut desk, 3, 0x08, [0, 0]), paid(0, 0));
    close(&mut desk, 5, 999);
    assert_eq!(due(&desk.book), Some(3));
    close(&mut desk, 3, 998);
    assert_eq!(due(&desk.book), Some(5));
}

/// Settled in the order of the due list, each pays what it held.
#[test]
fn settled() {
    let mut desk = kept(700, 900).at(4_600);
    assert_eq!(due(&desk.book), Some(5));
    assert_eq!(give(&mut desk, 5, 0x0a, [0, 0]), paid(900, 0));
    assert_eq!(due(&desk.book), Some(3));
    assert_eq!(give(&mut desk, 3, 0x0a, [0, 0]), paid(700, 0));
    assert_eq!(due(&desk.book), None);
}

/// A lent channel of this status and total with the deadline, and with this in its kept part.
fn lent(status: u32, total: u64, kept: u64, deadline: u64) -> Channel {
    let mut channel = Book::open(&[7; 16]).unwrap().as_raw().channels[0];
    channel.status = status;
    channel.delay = 3_600;
    channel.customer.deposit = Cents(total / 2);
    channel.merchant.deposit = Cents(total - total / 2);
    channel.kept = Cents(kept);
    channel.deadline = Seconds(deadline);
    channel
}

/// A lent customer's closing of 1,000 that keeps this much.
fn keeps(kept: u64, deadline: u64) -> Channel {
    lent(5, 1_000, kept, deadline)
}

/// A lent book with these two as channels 3 and 5.
fn book(third: Channel, fifth: Channel) -> raw::Book {
    let mut raw = Book::open(&[7; 16]).unwrap().as_raw().clone();
    (raw.channels[3], raw.channels[5]) = (third, fifth);
    raw
}

/// Which of the two is due.
fn first(third: Channel, fifth: Channel) -> Option<u8> {
    due(&Book::from_raw(book(third, fifth)))
}

/// What stands in the kept part of a merchant's closing counts for nothing.
#[test]
fn unused_part() {
    for unused in [0, 999, 1_001, LARGEST, u64::MAX] {
        let merchant = lent(4, 1_000, unused, MONDAY);
        assert_eq!(first(keeps(999, MONDAY), merchant), Some(5), "{unused}");
        assert_eq!(first(keeps(1_000, MONDAY), merchant), Some(3), "{unused}");
        let larger = lent(5, 2_000, 1_001, MONDAY);
        assert_eq!(first(merchant, larger), Some(5), "{unused}");
    }
}

#[test]
fn largest_sum() {
    let merchant = lent(4, LARGEST, 0, MONDAY);
    let customer = |kept| lent(5, LARGEST, kept, MONDAY);
    assert_eq!(first(customer(LARGEST - 1), merchant), Some(5));
    assert_eq!(first(customer(LARGEST), merchant), Some(3));
    assert_eq!(first(keeps(1_000, MONDAY), customer(999)), Some(3));
    assert_eq!(first(keeps(1_000, MONDAY), customer(1 << 32)), Some(5));
}

#[test]
fn any_deadline() {
    for deadline in [0, 1, LARGEST, 1 << 63, u64::MAX] {
        let at = |third, fifth| first(keeps(third, deadline), keeps(fifth, deadline));
        assert_eq!(at(700, 900), Some(5), "{deadline}");
        assert_eq!(at(900, 700), Some(3), "{deadline}");
        assert_eq!(at(900, 900), Some(3), "{deadline}");
    }
    for (earlier, later) in [(0, 1), (LARGEST, 1 << 63), (u64::MAX - 1, u64::MAX)] {
        assert_eq!(first(keeps(1, earlier), keeps(900, later)), Some(3));
        assert_eq!(first(keeps(900, later), keeps(1, earlier)), Some(5));
    }
}

/// A channel that nobody is closing is never due, with a smaller deadline and a larger sum.
#[test]
fn others() {
    for status in [0, 1, 2, 3, 6] {
        let other = lent(status, 2_000, 2_000, 0);
        assert_eq!(first(other, keeps(0, MONDAY)), Some(5), "{status}");
        assert_eq!(first(keeps(0, MONDAY), other), Some(3), "{status}");
        assert_eq!(first(other, other), None, "{status}");
    }
}

#[test]
fn unsound() {
    let sound = book(keeps(700, MONDAY), keeps(900, MONDAY));
    let changes: [fn(&mut raw::Book); 5] = [
        |raw| raw.mark ^= 1,
        |raw| raw.clock = Seconds(LARGEST + 1),
        |raw| raw.setup.fee = 1_001,
        |raw| raw.channels[63].status = 7,
        |raw| raw.channels[3].kept = Cents(1_001),
    ];
    for change in changes {
        let mut raw = sound.clone();
        assert_eq!(due(&Book::from_raw(raw.clone())), Some(5));
        change(&mut raw);
        assert_eq!(due(&Book::from_raw(raw)), None);
    }
}
