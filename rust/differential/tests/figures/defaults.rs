//! Document 02 No. 1: an opening gives the default that a delay of 0 in 02 stands for.
use crate::desk::{paid, plan, refused, Desk, ID};
use finaruvom::raw::Answer;
use finaruvom::{Book, Refusal, Seconds, Settings};

/// A desk with this book and the clock at 1,000.
fn desk(book: Book) -> Desk {
    Desk { book }.at(1_000)
}

/// A book of the desk's, in which a delay of 0 stands for 172,800.
fn new_book() -> Book {
    Book::open_with(&ID, &Settings::default().with_delay(172_800)).unwrap()
}

/// The answer to an 02 with this delay.
fn establish(desk: &mut Desk, delay: u32) -> Answer {
    let mut establish = plan(0x02, [900, 100]);
    establish.delay = delay;
    desk.file(&establish)
}

/// A channel that was established with this delay, and closed by the customer at 1,000.
fn closing(book: Book, delay: u32) -> Desk {
    let mut desk = desk(book);
    assert_eq!(establish(&mut desk, delay), paid(0, 0));
    assert_eq!(desk.give(0x03, [900, 0]), paid(0, 0));
    assert_eq!(desk.give(0x04, [100, 0]), paid(0, 0));
    assert_eq!(desk.give(0x07, [700, 300]), paid(0, 300));
    desk
}

#[test]
fn deadline_of_the_default() {
    let closing = || closing(new_book(), 0);
    assert_eq!(closing().channel().delay, 172_800);
    assert_eq!(closing().channel().deadline, Seconds(173_800));
    let at = |time, opcode| closing().at(time).give(opcode, [0, 0]);
    assert_eq!(at(173_799, 0x09), paid(0, 700));
    assert_eq!(at(173_800, 0x09), refused(9));
    assert_eq!(at(173_799, 0x0a), refused(9));
    assert_eq!(at(173_800, 0x0a), paid(700, 0));
}

#[test]
fn given_delays_stay() {
    let deadline = |book, delay| closing(book, delay).channel().deadline;
    let plain = || Book::open(&ID).unwrap();
    assert_eq!(deadline(plain(), 0), Seconds(87_400));
    assert_eq!(deadline(plain(), 172_800), Seconds(173_800));
    assert_eq!(deadline(new_book(), 3_600), Seconds(4_600));
    assert_eq!(deadline(new_book(), 86_400), Seconds(87_400));
    let longest = Book::open_with(&ID, &Settings::default().with_delay(2_592_000));
    assert_eq!(deadline(longest.unwrap(), 0), Seconds(2_593_000));
}

/// The delay is read when the 02 is accepted: a default that changes later does not move it.
#[test]
fn read_once() {
    let mut raw = closing(new_book(), 0).book.as_raw().clone();
    (raw.channels[0].status, raw.channels[0].deadline) = (3, Seconds(0));
    raw.setup.delay = 3_600;
    let mut desk = Desk {
        book: Book::from_raw(raw),
    };
    assert_eq!(desk.give(0x08, [0, 0]), paid(0, 0));
    assert_eq!(desk.channel().deadline, Seconds(173_800));
}

/// Check 7 looks at the operand alone.
#[test]
fn operands_out_of_range() {
    for delay in [1, 3_599, 2_592_001, u32::MAX] {
        assert_eq!(establish(&mut desk(new_book()), delay), refused(7));
    }
}

/// The answer to an opening over a used book, which keeps every value where it is refused.
fn opened(id: &[u8], delay: u32) -> Result<u32, Refusal> {
    let mut book = closing(new_book(), 0).book;
    let before = book.clone();
    let opened = book.reopen_with(id, &Settings::default().with_delay(delay));
    let setup = book.as_raw().setup;
    match opened {
        Ok(()) => assert_eq!(
            Book::open_with(id, &Settings::default().with_delay(delay)),
            Ok(book)
        ),
        Err(_) => assert_eq!(book, before),
    }
    opened.map(|()| setup.delay)
}

#[test]
fn openings() {
    for delay in [3_600, 86_400, 172_800, 2_592_000] {
        assert_eq!(opened(&ID, delay), Ok(delay));
        assert_eq!(opened(&ID[1..], delay), Err(Refusal::Length));
    }
    for delay in [3_599, 2_592_001, 0, u32::MAX] {
        assert_eq!(opened(&ID, delay), Err(Refusal::SettingsDelay));
        assert_eq!(opened(&ID[1..], delay), Err(Refusal::Length));
        assert_eq!(opened(&[1; 17], delay), Err(Refusal::Length));
    }
    assert_eq!(Refusal::SettingsDelay.number(), 14);
}
