//! Books as bytes.
mod parties;

use finaruvom::command::{Establish, FundCustomer, SetClock};
use finaruvom::{
    raw, Book, Cause, Cents, Date, Line, Ran, Refusal, Seconds, Settings, Status, BOOK_SIZE, DAYS,
};

const ID: [u8; 16] = *b"the book's id 01";
/// What every opening writes: the word and the layout.
const MARK: u64 = u64::from_be_bytes(*b"arbiter\x06");

/// The shut dates of the book in use, the days 20,812 and 20,819.
const DATES: [Date; 2] = [Date::new(2026, 12, 25), Date::new(2027, 1, 1)];
/// A list with a date that does not exist, and one that falls.
const NO_DATE: [Date; 2] = [Date::new(2026, 12, 25), Date::new(2027, 2, 29)];
const FALLING: [Date; 2] = [DATES[1], DATES[0]];

/// A book that holds these bytes, whatever they are.
fn holding(bytes: &[u8; BOOK_SIZE]) -> Book {
    // SAFETY: there are as many bytes as a book has, and any bytes are a book.
    Book::from_raw(unsafe { bytes.as_ptr().cast::<raw::Book>().read_unaligned() })
}

/// Bytes that differ from each other.
fn mixed() -> [u8; BOOK_SIZE] {
    let mut state: u32 = 1;
    [0; BOOK_SIZE].map(|_: u8| {
        state = state.wrapping_mul(1_103_515_245).wrapping_add(12_345);
        state.to_be_bytes()[0]
    })
}

/// What may stand in memory before a book is made there.
fn former() -> Vec<[u8; BOOK_SIZE]> {
    let filled = [0x00, 0x55, 0xaa, 0xff].map(|byte| [byte; BOOK_SIZE]);
    let mut former = filled.to_vec();
    former.push(mixed());
    former.push(*used().as_bytes());
    former
}

fn fresh() -> Book {
    Book::open(&ID).unwrap()
}

/// A book with a fee, shut dates and a channel in use.
fn used() -> Book {
    let [customer_key, merchant_key] = parties::keys();
    let establish = Establish {
        channel: 63,
        customer_key,
        merchant_key,
        customer: Cents(900),
        merchant: Cents(100),
        delay: 3_600,
    };
    let fund = FundCustomer {
        channel: 63,
        amount: Cents(900),
    };
    let clock = SetClock {
        time: Seconds(1_000),
    };
    let settings = Settings::default().with_fee(250).with_dates(&DATES);
    let mut book = Book::open_with(&ID, &settings).unwrap();
    for command in [&clock.command()[..], &establish.command(), &fund.command()] {
        assert_eq!(book.apply(command).refused(), None);
    }
    book
}

#[test]
fn stored_and_restored() {
    for make in [fresh, used] {
        let book = make();
        let stored = book.as_bytes().to_vec();
        let restored = Book::from_bytes(&stored).unwrap();
        assert_eq!(restored, book);
        assert_eq!(restored.as_bytes()[..], stored);
        // From an odd address too.
        let shifted = [&[0], &stored[..]].concat();
        assert_eq!(Book::from_bytes(&shifted[1..]), Ok(book));
    }
}

/// Settings that are wrong in one thing each.
fn refused_settings() -> [(Settings<'static>, Refusal); 4] {
    let plain = Settings::default;
    [
        (plain().with_delay(0), Refusal::SettingsDelay),
        (plain().with_fee(1_001), Refusal::SettingsFee),
        (plain().with_dates(&NO_DATE), Refusal::SettingsDate),
        (plain().with_dates(&FALLING), Refusal::SettingsDates),
    ]
}

#[test]
fn fresh_over_any_contents() {
    let mut expected = [0; BOOK_SIZE];
    expected[..8].copy_from_slice(&MARK.to_le_bytes());
    expected[8..24].copy_from_slice(&ID);
    expected[24..28].copy_from_slice(&86_400_u32.to_le_bytes());
    assert!(*fresh().as_bytes() == expected);
    for contents in former() {
        let mut book = holding(&contents);
        assert_eq!(book.reopen(&ID[1..]), Err(Refusal::Length));
        assert!(*book.as_bytes() == contents);
        for (settings, refusal) in refused_settings() {
            assert_eq!(book.reopen_with(&ID, &settings), Err(refusal));
        }
        assert!(*book.as_bytes() == contents);
        assert_eq!(book.reopen(&ID), Ok(()));
        assert!(*book.as_bytes() == expected);
        let mut book = holding(&contents);
        assert_eq!(book.reopen_with(&ID, &Settings::default()), Ok(()));
        assert!(*book.as_bytes() == expected);
    }
}

/// Default and fee stand behind the id, then 64 days, their number and whether there is a list, in
/// four bytes each.
#[test]
fn settings_over_any_contents() {
    let mut expected = *fresh().as_bytes();
    for (place, number) in [
        (24, 172_800_u32),
        (28, 999),
        (32, 20_812),
        (36, 20_819),
        (288, 2),
        (292, 1),
    ] {
        expected[place..place + 4].copy_from_slice(&number.to_le_bytes());
    }
    for contents in former() {
        let mut book = holding(&contents);
        let settings = Settings::desk().with_fee(999).with_dates(&DATES);
        assert_eq!(book.reopen_with(&ID, &settings), Ok(()));
        assert!(*book.as_bytes() == expected);
    }
}

/// The values of one book, written into another one by one.
fn copy_values(from: &raw::Book, to: &mut raw::Book) {
    to.mark = from.mark;
    to.id = from.id;
    to.setup.delay = from.setup.delay;
    to.setup.fee = from.setup.fee;
    to.setup.days = from.setup.days;
    to.setup.count = from.setup.count;
    to.setup.dated = from.setup.dated;
    to.clock = from.clock;
    for (from, to) in from.channels.iter().zip(&mut to.channels) {
        to.customer.key = from.customer.key;
        to.customer.deposit = from.customer.deposit;
        to.merchant.key = from.merchant.key;
        to.merchant.deposit = from.merchant.deposit;
        to.deadline = from.deadline;
        to.kept = from.kept;
        to.delay = from.delay;
        to.status = from.status;
        to.lock = from.lock;
        to.leaves.first = from.leaves.first;
        to.leaves.second = from.leaves.second;
    }
}

#[test]
fn equal_values_are_equal_bytes() {
    for contents in former() {
        let mut raw = holding(&contents).as_raw().clone();
        copy_values(used().as_raw(), &mut raw);
        let book = Book::from_raw(raw);
        assert_eq!(book, used());
        assert!(book.as_bytes() == used().as_bytes());
    }
}

#[test]
fn wrong_lengths() {
    let stored = used().as_bytes().to_vec();
    let near = (BOOK_SIZE - 200..=BOOK_SIZE + 200).filter(|length| *length != BOOK_SIZE);
    for length in near.chain([0, 1, 8, 11_808, 11_816, 12_328, 2 * BOOK_SIZE]) {
        let mut bytes = stored.clone();
        bytes.resize(length, 0);
        assert_eq!(Book::from_bytes(&bytes), Err(Refusal::Unsound), "{length}");
    }
    assert!(Book::from_bytes(&stored).is_ok());
}

/// The books that versions wrote, one of each layout.
#[test]
fn written_by_versions() {
    let former: [&[u8]; 5] = [
        include_bytes!("../../../tests/books/layout-1.bin"),
        include_bytes!("../../../tests/books/layout-2.bin"),
        include_bytes!("../../../tests/books/layout-3.bin"),
        include_bytes!("../../../tests/books/layout-4.bin"),
        include_bytes!("../../../tests/books/layout-5.bin"),
    ];
    for stored in former {
        assert_eq!(Book::from_bytes(stored), Err(Refusal::Unsound));
        let mut resized = stored.to_vec();
        resized.resize(BOOK_SIZE, 0);
        assert_eq!(Book::from_bytes(&resized), Err(Refusal::Unsound));
    }

    let book = Book::from_bytes(include_bytes!("../../../tests/books/layout-6.bin")).unwrap();
    assert_eq!(book.clock(), Seconds(1_793_671_200));
    assert_eq!((book.default_delay(), book.fee()), (Seconds(86_400), 250));
    let dates = [(2026, 11, 1), (2026, 11, 3), (2026, 12, 25)];
    let dates = dates.map(|(year, month, day)| Date::new(year, month, day));
    assert!(book.dates().unwrap().eq(dates));
    assert_eq!(book.as_raw().channels[1].delay, 86_400);
    let closing = book.read(2).unwrap();
    assert_eq!(closing.status, Status::CustomerClosing);
    // On Tuesday, 3 November, at five, but that day is shut.
    assert_eq!(closing.deadline, Seconds(1_793_750_400));
    assert_eq!(closing.deadline.date(), Some(Date::new(2026, 11, 4)));
    assert_eq!(
        (closing.total, closing.kept),
        (Cents(55_000), Cents(20_000))
    );
    assert_eq!(book.due(), Some(2));
    let [disputed, answered] = [1, 2].map(|n| book.as_raw().channels[n].leaves);
    assert_eq!((disputed.first, disputed.second), (1, 1));
    assert_eq!((answered.first, answered.second), (3, 4));
}

/// Asserts that every call refuses a book with these values and keeps them.
fn refused(raw: &raw::Book) {
    let mut book = Book::from_raw(raw.clone());
    assert_eq!(Book::from_bytes(book.as_bytes()), Err(Refusal::Unsound));
    let settle = [0x0a, 0, 63];
    assert_eq!(book.apply(&settle).paid(), Err(Refusal::Unsound));
    assert_eq!(book.read(63), Err(Refusal::Unsound));
    assert_eq!(book.due(), None);
    let mut lines = [Line::default(); 1];
    let ran = Ran {
        lines: 1,
        used: 3,
        cause: Cause::NoBytes,
    };
    assert_eq!(book.run(&settle, &mut lines), ran);
    assert_eq!(lines[0].answer.refused(), Some(Refusal::Unsound));
    assert_eq!(lines[0].answer.as_raw().refusal, 99);
    assert_eq!(book.as_raw(), raw);
}

/// A book in which channel 63 is due.
fn closing() -> raw::Book {
    let mut raw = used().as_raw().clone();
    raw.channels[63].status = 4;
    let book = Book::from_raw(raw.clone());
    assert_eq!(book.due(), Some(63));
    assert_eq!(Book::from_bytes(book.as_bytes()), Ok(book));
    raw
}

#[test]
fn other_layouts() {
    let others = (0..=u8::MAX).filter(|layout| *layout != 6);
    // 0x21 is that of the books which were written before layouts had numbers.
    let marks = others.map(|layout| MARK & !0xff | u64::from(layout));
    for mark in marks.chain([0, u64::MAX, MARK.swap_bytes()]) {
        let mut raw = closing();
        raw.mark = mark;
        refused(&raw);
    }
}

#[test]
fn values_out_of_range() {
    for status in [7, 8, 255, 256, 259, 260, 1 << 16 | 4, 4 << 24, u32::MAX] {
        let mut raw = closing();
        raw.channels[63].status = status;
        refused(&raw);
    }
    for delay in [0, 3_599, 2_592_001, u32::MAX] {
        let mut raw = closing();
        raw.channels[63].delay = delay;
        refused(&raw);
    }
    for default in [0, 3_599, 2_592_001, u32::MAX] {
        let mut raw = closing();
        raw.setup.delay = default;
        refused(&raw);
    }
    for fee in [1_001, 10_000, 1 << 16, u32::MAX] {
        let mut raw = closing();
        raw.setup.fee = fee;
        refused(&raw);
    }
    for dated in [2, 255, 256, 257, 1 << 16, 1 << 31, u32::MAX] {
        let mut raw = closing();
        raw.setup.dated = dated;
        refused(&raw);
    }
    let mut raw = closing();
    raw.clock = Seconds(1 << 63);
    refused(&raw);
    let mut raw = closing();
    raw.channels[63].merchant.deposit = Cents((1 << 63) - 900);
    refused(&raw);
}

/// The days of a book, as far as they are counted, rise and are dates, with a list or without.
#[test]
fn days_out_of_range() {
    let full: Vec<u32> = (DAYS - 64..DAYS).collect();
    let changed = |place: usize, day| {
        let mut days = full.clone();
        days[place] = day;
        days
    };
    for dated in [0, 1] {
        for (days, count) in [
            (full.clone(), 65),
            (full.clone(), 256),
            (full.clone(), 1 << 16),
            (full.clone(), u32::MAX),
            (changed(63, DAYS), 64),
            (changed(63, u32::MAX), 64),
            (changed(63, full[62]), 64),
            (changed(0, full[1]), 64),
            (changed(0, full[1]), 2),
            (changed(1, 0), 2),
        ] {
            let mut raw = closing();
            raw.setup.days.copy_from_slice(&days);
            (raw.setup.count, raw.setup.dated) = (count, dated);
            refused(&raw);
        }
    }
}

/// Full lists, days at both ends, and anything behind those that are counted.
#[test]
fn sound_lists() {
    let mut behind = [u32::MAX; 64];
    behind[..2].copy_from_slice(&[0, DAYS - 1]);
    let full = std::array::from_fn(|at| DAYS - 64 + u32::try_from(at).unwrap());
    for dated in [0, 1] {
        for (days, count) in [(full, 64), ([9; 64], 0), ([9; 64], 1), (behind, 2)] {
            let mut raw = closing();
            raw.setup.days = days;
            (raw.setup.count, raw.setup.dated) = (count, dated);
            let book = Book::from_raw(raw);
            assert_eq!(Book::from_bytes(book.as_bytes()).as_ref(), Ok(&book));
            assert_eq!(book.due(), Some(63));
        }
    }
}
