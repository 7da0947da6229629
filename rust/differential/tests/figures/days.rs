//! Document 02 No. 8: deadlines on banking days.
use crate::desk::{paid, plan, refused, Desk, ID};
use finaruvom::{Book, Date, Refusal, Seconds, Settings, DAYS, HIGHEST_FEE, MOST_DATES};

const DAY: u64 = 86_400;
/// Friday, 25 December 2026, and the Monday after it.
const CHRISTMAS: u64 = 1_798_156_800;
const MONDAY: u64 = 1_798_416_000;
/// The largest clock, which is on a Sunday, and the Monday after it.
const LARGEST: u64 = (1 << 63) - 1;
const AFTER_ALL: u64 = 9_223_372_036_854_806_400;

/// The dates with these numbers.
fn dates(numbers: &[u32]) -> Vec<Date> {
    numbers.iter().copied().map(Date::from).collect()
}

/// So many dates one after the other, from this day on.
fn row(first: u64, count: usize) -> Vec<Date> {
    let date = |day| Seconds(DAY * day).date().unwrap();
    (first..).take(count).map(date).collect()
}

/// The answer to an opening with a list.
fn opened(dates: &[Date]) -> Result<Book, Refusal> {
    Book::open_with(&ID, &Settings::default().with_dates(dates))
}

/// A desk whose channel is open, with this delay, at this clock, in a book with these dates.
fn open(list: Option<&[u32]>, clock: u64, delay: u32) -> Desk {
    let book = match list {
        Some(numbers) => opened(&dates(numbers)).unwrap(),
        None => Book::open(&ID).unwrap(),
    };
    let mut desk = Desk { book };
    let mut establish = plan(0x02, [900, 100]);
    establish.delay = delay;
    assert_eq!(desk.file(&establish), paid(0, 0));
    assert_eq!(desk.give(0x03, [900, 0]), paid(0, 0));
    assert_eq!(desk.give(0x04, [100, 0]), paid(0, 0));
    desk.at(clock)
}

/// The deadline of each of the three closings, which is the same, and read as it is stored.
fn deadline(list: Option<&[u32]>, clock: u64, delay: u32) -> u64 {
    let mut merchant = open(list, clock, delay);
    assert_eq!(merchant.give(0x08, [0, 0]), paid(0, 0));
    let stored = merchant.channel().deadline;
    assert_eq!(merchant.give(0x07, [700, 300]), paid(0, 300));
    let mut customer = open(list, clock, delay);
    assert_eq!(customer.give(0x07, [700, 300]), paid(0, 300));
    for desk in [merchant, customer] {
        assert_eq!(desk.channel().deadline, stored);
        assert_eq!(desk.book.read(0).unwrap().deadline, stored);
        assert_eq!(desk.book.due(), Some(0));
    }
    stored.0
}

#[test]
fn weekends() {
    assert_eq!(deadline(Some(&[]), 86_400, 86_400), 345_600);
    assert_eq!(deadline(Some(&[]), 86_400, 86_399), 172_799);
    assert_eq!(deadline(Some(&[]), 86_400, 172_800), 345_600);
    assert_eq!(deadline(Some(&[]), 86_400, 259_199), 345_600);
    assert_eq!(deadline(Some(&[]), 86_400, 259_200), 345_600);
    assert_eq!(deadline(Some(&[]), 86_400, 259_201), 345_601);
    assert_eq!(deadline(None, 86_400, 86_400), 172_800);
    assert_eq!(deadline(None, 86_400, 259_199), 345_599);
}

#[test]
fn listed_dates() {
    let ten = CHRISTMAS + 36_000;
    let at = |list: Option<&[u32]>, falls: u64| deadline(list, falls - 3_600, 3_600);
    assert_eq!(at(None, ten), ten);
    assert_eq!(at(Some(&[]), ten), ten);
    assert_eq!(at(Some(&[20_261_225]), ten), MONDAY);
    assert_eq!(at(Some(&[20_261_225]), CHRISTMAS), MONDAY);
    assert_eq!(at(Some(&[20_261_225]), CHRISTMAS - 1), CHRISTMAS - 1);
    assert_eq!(at(Some(&[20_261_225, 20_261_228]), ten), 1_798_502_400);
    assert_eq!(at(Some(&[20_261_228]), ten), ten);
    assert_eq!(at(Some(&[20_261_228]), MONDAY - 1), 1_798_502_400);
    // A listed Saturday is shut anyway.
    assert_eq!(at(Some(&[20_261_226]), ten), ten);
    assert_eq!(at(Some(&[20_261_226]), ten + DAY), MONDAY);
}

/// 64 dates from Friday on end with a Friday, and the weekend comes behind.
#[test]
fn many_dates() {
    let numbers: Vec<u32> = row(1, MOST_DATES).into_iter().map(Date::number).collect();
    let at = |falls: u64| deadline(Some(&numbers), falls - 3_600, 3_600);
    assert_eq!(at(86_399), 86_399);
    for day in [1, 2, 3, 40, 64, 65, 66] {
        assert_eq!(at(DAY * day), 67 * DAY);
        assert_eq!(at(DAY * day + DAY - 1), 67 * DAY);
    }
    assert_eq!(at(67 * DAY + 1), 67 * DAY + 1);
}

/// Days go on after the last date, a Friday, with their weekends.
#[test]
fn after_the_last_date() {
    let last = DAY * u64::from(DAYS - 1);
    let at = |list: Option<&[u32]>, falls: u64| deadline(list, falls - 3_600, 3_600);
    assert_eq!(at(Some(&[]), last + DAY - 1), last + DAY - 1);
    assert_eq!(at(Some(&[23_991_231]), last), last + 3 * DAY);
    assert_eq!(at(Some(&[23_991_231]), last + DAY), last + 3 * DAY);
    assert_eq!(at(None, last + DAY), last + DAY);
    let january = last + 3 * DAY;
    assert_eq!(at(Some(&[23_991_231]), january + 5), january + 5);
}

#[test]
fn the_largest_clock() {
    assert_eq!(deadline(Some(&[]), LARGEST, 3_600), AFTER_ALL);
    assert_eq!(deadline(Some(&[]), LARGEST - 3_600, 3_600), AFTER_ALL);
    assert_eq!(deadline(None, LARGEST, 3_600), LARGEST + 3_600);
    let tuesday = LARGEST + 2_592_000;
    assert_eq!(deadline(Some(&[]), LARGEST, 2_592_000), tuesday);
    // The clock never comes there.
    let mut desk = open(Some(&[]), LARGEST, 3_600);
    assert_eq!(desk.give(0x08, [0, 0]), paid(0, 0));
    assert_eq!(desk.give(0x01, [AFTER_ALL, 0]), refused(3));
    assert_eq!(desk.give(0x0a, [0, 0]), refused(9));
}

/// The checks of the clock read the moved deadline, on Monday in place of Saturday.
#[test]
fn checks_9() {
    let closed = |opcode| {
        let mut desk = open(Some(&[]), 86_400, 86_400);
        assert_eq!(desk.give(opcode, [700, 300]).refusal, 0);
        desk
    };
    for early in [172_799, 172_800, 172_801, 345_599] {
        let at = |opcode| closed(opcode).at(early);
        assert_eq!(at(0x07).give(0x09, [0, 0]), paid(0, 700), "{early}");
        assert_eq!(at(0x07).give(0x0a, [0, 0]), refused(9), "{early}");
        assert_eq!(at(0x08).give(0x07, [700, 300]), paid(0, 300), "{early}");
        assert_eq!(at(0x08).give(0x0a, [0, 0]), refused(9), "{early}");
    }
    for late in [345_600, 345_601] {
        let at = |opcode| closed(opcode).at(late);
        assert_eq!(at(0x07).give(0x09, [0, 0]), refused(9), "{late}");
        assert_eq!(at(0x07).give(0x0a, [0, 0]), paid(700, 0), "{late}");
        assert_eq!(at(0x08).give(0x07, [700, 300]), refused(9), "{late}");
        assert_eq!(at(0x08).give(0x0a, [0, 0]), paid(0, 1_000), "{late}");
    }
}

/// An answer on Sunday has a deadline of its own: a day later is Monday, 12:00:00.
#[test]
fn answered_on_a_weekend() {
    let mut desk = open(Some(&[]), 86_400, 86_400);
    assert_eq!(desk.give(0x08, [0, 0]), paid(0, 0));
    let mut desk = desk.at(302_400);
    assert_eq!(desk.give(0x07, [700, 300]), paid(0, 300));
    assert_eq!(desk.channel().deadline, Seconds(388_800));
}

/// The deadlines of two channels, of which the one that falls earlier is moved behind the other: it
/// is due later.
#[test]
fn due_list() {
    let falling = |list: Option<&[u32]>| {
        let mut desk = open(list, 86_400, 86_400);
        assert_eq!(desk.give(0x08, [0, 0]), paid(0, 0));
        let mut raw = desk.book.as_raw().clone();
        raw.channels[1] = raw.channels[0];
        raw.channels[1].deadline = Seconds(172_801);
        Book::from_raw(raw).due()
    };
    assert_eq!(falling(None), Some(0));
    assert_eq!(falling(Some(&[])), Some(1));
}

/// What stands behind the days that are counted shuts nothing, and neither does a list that is
/// none.
#[test]
fn days_that_are_not_listed() {
    for (count, dated, expected) in [(1, 1, MONDAY), (0, 1, CHRISTMAS), (1, 0, CHRISTMAS)] {
        let desk = open(Some(&[20_261_225]), CHRISTMAS - 3_600, 3_600);
        let mut raw = desk.book.as_raw().clone();
        (raw.setup.count, raw.setup.dated) = (count, dated);
        let book = Book::from_raw(raw);
        let mut desk = Desk { book };
        assert_eq!(desk.give(0x08, [0, 0]), paid(0, 0));
        assert_eq!(desk.channel().deadline, Seconds(expected));
    }
}

#[test]
fn openings() {
    assert!(opened(&dates(&[20_280_229])).is_ok());
    for bad in [21_000_229, 20_260_431, 19_691_231, 24_000_101, 0] {
        assert_eq!(opened(&dates(&[bad])), Err(Refusal::SettingsDate), "{bad}");
    }
    let bad = Date::from(0);
    let with_bad = |count| [row(9, count), vec![bad]].concat();
    assert!(opened(&row(9, 64)).is_ok());
    assert_eq!(opened(&row(9, 65)), Err(Refusal::SettingsDates));
    for good in [0, 1, 63, 64, 69] {
        assert_eq!(opened(&with_bad(good)), Err(Refusal::SettingsDate));
    }
    for list in [[20_260_501, 20_260_501], [20_260_502, 20_260_501]] {
        assert_eq!(opened(&dates(&list)), Err(Refusal::SettingsDates));
        let and_bad = [dates(&list), vec![bad]].concat();
        assert_eq!(opened(&and_bad), Err(Refusal::SettingsDate));
    }
    assert_eq!(Refusal::SettingsDate.number(), 21);
    assert_eq!(Refusal::SettingsDates.number(), 22);
}

/// 14 before 20 before 21 before 22, over a book that keeps every value.
#[test]
fn the_first_no_decides() {
    let mut book = open(Some(&[20_261_225]), CHRISTMAS, 3_600).book;
    let before = book.clone();
    let mut refused = |id: &[u8], settings: &Settings, refusal| {
        assert_eq!(book.reopen_with(id, settings), Err(refusal));
        assert_eq!(book, before);
    };
    let (many, worse) = (row(9, 65), dates(&[20_260_502, 20_260_501, 20_260_431]));
    let settings = Settings::default;
    refused(&ID, &settings().with_dates(&many), Refusal::SettingsDates);
    for list in [&many, &worse] {
        let fee = settings().with_dates(list).with_fee(HIGHEST_FEE + 1);
        refused(&ID, &fee, Refusal::SettingsFee);
        let delay = fee.with_delay(3_599);
        refused(&ID, &delay, Refusal::SettingsDelay);
        refused(&ID[1..], &delay, Refusal::Length);
    }
    refused(&ID, &settings().with_dates(&worse), Refusal::SettingsDate);
}

/// Every date from 1970 to 2399 is kept as its day, and the numbers between are none.
#[test]
fn every_date() {
    let mut book = Book::open(&ID).unwrap();
    let mut given = |number| {
        let date = [Date::from(number)];
        let opened = book.reopen_with(&ID, &Settings::default().with_dates(&date));
        opened.map(|()| (book.as_raw().setup.days[0], book.as_raw().setup.count))
    };
    let mut days = 0;
    for year in 1969..=2400 {
        for (month, day) in (0..=13).flat_map(|month| (0..=32).map(move |day| (month, day))) {
            let number = 10_000 * year + 100 * month + day;
            let expected = match (oracle::Date { year, month, day }).exists() {
                true => Ok((days, 1)),
                false => Err(Refusal::SettingsDate),
            };
            assert_eq!(given(number), expected, "{number}");
            days += u32::from(expected.is_ok());
        }
    }
    assert_eq!(days, DAYS);
}
