//! The figures of document 02 No. 8 on a book.
use super::parties::{Parties, ID, SECRET};
use crate::book::{Book, LARGEST, PLAIN_DEFAULT, PLAIN_RATE};
use crate::calendar::{Date, DAY, DAYS};
use crate::machine::apply;
use crate::reading::{due, read};
use crate::shut::Shut;

/// Friday, 25 December 2026, and the Monday after it.
const CHRISTMAS: u64 = 1_798_156_800;
const MONDAY: u64 = CHRISTMAS + 3 * DAY;

const fn date(year: u32, month: u32, day: u32) -> Date {
    Date { year, month, day }
}

/// So many dates one after the other, from 1 March 2026 on.
fn spring(count: usize) -> Vec<Date> {
    let from = |it: &Date| *it >= date(2026, 3, 1);
    Date::every().filter(from).take(count).collect()
}

/// A command that sets the clock.
fn clock(time: u64) -> Vec<u8> {
    [&[1][..], &time.to_be_bytes()].concat()
}

/// A fresh book with these dates.
fn opened(dates: Option<&[Date]>) -> Book {
    let mut book = Book::fresh([0; 16]);
    assert_eq!(book.open_with(&ID, PLAIN_DEFAULT, PLAIN_RATE, dates), 0);
    book
}

/// Carries the commands out.
fn file(book: &mut Book, commands: &[Vec<u8>]) {
    for command in commands {
        assert_eq!(apply(book, command).refusal, 0);
    }
}

/// A book in which the channel is closed at this clock: by an 08, a 07, or an 08 and its answer.
fn closed(dates: Option<&[Date]>, time: u64, delay: u32, how: &[u8]) -> Book {
    let parties = Parties::new();
    let mut book = opened(dates);
    file(&mut book, &parties.funding(delay));
    file(&mut book, &[clock(time)]);
    for opcode in how {
        let close = match opcode {
            8 => parties.signed(8, &[], 1),
            _ => parties.close(),
        };
        file(&mut book, &[close]);
    }
    book
}

/// The deadline that each of the three closings stores, which is the same.
fn deadline(dates: Option<&[Date]>, time: u64, delay: u32) -> u64 {
    let deadline = |how: &[u8]| {
        let book = closed(dates, time, delay, how);
        assert_eq!(due(&book), Some(0));
        assert_eq!(read(&book, 0).deadline, book.channels[0].deadline);
        book.channels[0].deadline
    };
    let [merchant, customer, answer] = [&[8][..], &[7], &[8, 7]].map(deadline);
    assert_eq!([merchant, customer], [answer; 2]);
    answer
}

#[test]
fn moved() {
    assert_eq!(deadline(Some(&[]), DAY, 86_400), 345_600);
    assert_eq!(deadline(Some(&[]), DAY, 86_399), 172_799);
    assert_eq!(deadline(None, DAY, 86_400), 172_800);
    let at = CHRISTMAS + 36_000 - 3_600;
    let one = [date(2026, 12, 25)];
    let two = [date(2026, 12, 25), date(2026, 12, 28)];
    assert_eq!(deadline(None, at, 3_600), CHRISTMAS + 36_000);
    assert_eq!(deadline(Some(&[]), at, 3_600), CHRISTMAS + 36_000);
    assert_eq!(deadline(Some(&one), at, 3_600), MONDAY);
    assert_eq!(deadline(Some(&two), at, 3_600), MONDAY + DAY);
    assert_eq!(
        deadline(Some(&two), CHRISTMAS - 3_601, 3_600),
        CHRISTMAS - 1
    );
    assert_eq!(deadline(Some(&two[1..]), at, 3_600), CHRISTMAS + 36_000);
    assert_eq!(deadline(Some(&two[1..]), at + DAY, 3_600), MONDAY + DAY);
}

/// 2399-12-31 is a Friday, and days go on after it.
#[test]
fn after_the_last_date() {
    let last = DAY * u64::from(DAYS - 1);
    let listed = [date(2399, 12, 31)];
    assert_eq!(deadline(Some(&[]), last, 3_600), last + 3_600);
    assert_eq!(deadline(Some(&listed), last, 3_600), last + 3 * DAY);
    assert_eq!(deadline(Some(&[]), last + DAY, 3_600), last + 3 * DAY);
    assert_eq!(deadline(None, last + DAY, 3_600), last + DAY + 3_600);
}

/// The largest clock is on a Sunday; a deadline above it is stored as it is.
#[test]
fn at_the_largest_clock() {
    let monday = LARGEST + 1 + 30_592;
    assert_eq!((monday % DAY, monday / DAY % 7), (0, 4));
    assert_eq!(deadline(None, LARGEST, 3_600), LARGEST + 3_600);
    assert_eq!(deadline(Some(&[]), LARGEST, 3_600), monday);
    assert_eq!(deadline(Some(&[]), LARGEST, 2_592_000), LARGEST + 2_592_000);
}

/// Refusals of a 09 and an 0A at this time, on a channel that the customer closed.
fn ends(book: &Book, time: u64) -> [u8; 2] {
    let dispute = Parties::new().signed(9, &SECRET, 1);
    [dispute, vec![0x0a, 0, 0]].map(|command| {
        let mut book = book.clone();
        file(&mut book, &[clock(time)]);
        apply(&mut book, &command).refusal
    })
}

/// The checks of the clock read the moved deadline: the dispute has the whole weekend.
#[test]
fn checks_9() {
    let book = closed(Some(&[]), DAY, 86_400, &[7]);
    for time in [172_799, 172_800, 259_200, 345_599] {
        assert_eq!(ends(&book, time), [0, 9], "{time}");
    }
    for time in [345_600, 345_601, LARGEST] {
        assert_eq!(ends(&book, time), [9, 0], "{time}");
    }
}

/// An answer on the weekend has a deadline of its own, of which Monday's stays.
#[test]
fn answers() {
    let answer = Parties::new().close();
    for (time, refusal, deadline) in [
        (172_800, 0, 345_600),
        (345_599, 0, 431_999),
        (345_600, 9, 345_600),
    ] {
        let mut book = closed(Some(&[]), DAY, 86_400, &[8]);
        file(&mut book, &[clock(time)]);
        assert_eq!(apply(&mut book, &answer).refusal, refusal, "{time}");
        assert_eq!(book.channels[0].deadline, deadline, "{time}");
    }
}

/// The answer to an opening over a used book, which keeps every value where it is refused.
fn reopened(id: &[u8], default_delay: u32, rate: u32, dates: Option<&[Date]>) -> u8 {
    let mut book = closed(Some(&spring(9)), DAY, 3_600, &[7]);
    let before = book.clone();
    let refusal = book.open_with(id, default_delay, rate, dates);
    let fresh = || Book {
        default_delay,
        rate,
        shut: dates.map_or(Shut::NONE, |dates| Shut::of(dates).unwrap()),
        ..Book::fresh(ID)
    };
    assert_eq!(book, if refusal == 0 { fresh() } else { before });
    refusal
}

#[test]
fn openings() {
    let given = |dates: &[Date]| reopened(&ID, PLAIN_DEFAULT, PLAIN_RATE, Some(dates));
    let bad = date(2026, 2, 30);
    let with = |count, last| [spring(count), vec![last]].concat();
    assert_eq!(reopened(&ID, PLAIN_DEFAULT, PLAIN_RATE, None), 0);
    for good in [0, 1, 2, 63, 64] {
        assert_eq!(given(&spring(good)), 0);
        assert_eq!(given(&with(good, bad)), 21);
    }
    assert_eq!(given(&spring(65)), 22);
    assert_eq!(given(&with(69, bad)), 21);
    assert_eq!(given(&[&[bad][..], &spring(64)].concat()), 21);
    // A pair that is equal or falls, and a date that doesn't exist behind it.
    for last in [date(2026, 3, 3), date(2026, 3, 2)] {
        let mut dates = with(3, last);
        assert_eq!(given(&dates), 22);
        dates.push(bad);
        assert_eq!(given(&dates), 21);
    }
}

#[test]
fn the_first_no_decides() {
    for (dates, refusal) in [(vec![date(2100, 2, 29)], 21), (spring(65), 22)] {
        let given = |id, delay, rate| reopened(id, delay, rate, Some(&dates));
        assert_eq!(given(&ID, 3_600, 1_000), refusal);
        assert_eq!(given(&ID, 3_600, 1_001), 20);
        assert_eq!(given(&ID, 3_599, 1_001), 14);
        assert_eq!(given(&ID[1..], 3_599, 1_001), 2);
    }
}

#[test]
fn sound() {
    let full: Vec<u32> = (DAYS - 64..DAYS).collect();
    let books = [
        (0, vec![], 0),
        (1, vec![0, 1, DAYS - 1], 0),
        (0, full.clone(), 0),
        (1, full, 0),
        (2, vec![], 99),
        (u32::MAX, vec![5], 99),
        (0, (0..65).collect(), 99),
        (1, (0..65).collect(), 99),
        (0, vec![5, 5], 99),
        (1, vec![5, 6, 5], 99),
        (0, vec![5, DAYS], 99),
        (1, vec![u32::MAX], 99),
    ];
    for (listed, days, refusal) in books {
        let mut book = closed(None, DAY, 3_600, &[7]);
        book.shut = Shut { listed, days };
        assert_eq!(book.sound(), refusal == 0, "{:?}", book.shut);
        assert_eq!(read(&book, 0).refusal, refusal);
        assert_eq!(due(&book), (refusal == 0).then_some(0));
        assert_eq!(apply(&mut book, &clock(LARGEST)).refusal, refusal);
    }
}

/// A list that stands in a book without one shuts nothing.
#[test]
fn no_list() {
    let mut book = closed(None, DAY, 3_600, &[]);
    book.shut.days = vec![1, 2, 3];
    file(&mut book, &[Parties::new().close()]);
    assert_eq!(book.channels[0].deadline, DAY + 3_600);
}
