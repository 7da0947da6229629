//! Openings with dates of every kind.
use super::{opened, ID};
use finaruvom::command::SetClock;
use finaruvom::{raw, Book, Date, Refusal, Seconds, Settings, HIGHEST_FEE, MOST_DATES};

/// 29 February 2100, which is no date.
const NEVER: Date = Date::new(2100, 2, 29);

/// So many dates one after the other, from 1 January 1970 on.
fn rising(count: usize) -> Vec<Date> {
    let midnights = (0..).step_by(86_400).map(Seconds);
    midnights.map_while(Seconds::date).take(count).collect()
}

/// The dates with one more at this place.
fn with(dates: &[Date], place: usize, date: Date) -> Vec<Date> {
    let mut dates = dates.to_vec();
    dates.insert(place, date);
    dates
}

#[test]
fn kept_by_the_book() {
    let plain = Book::open(&ID).unwrap();
    assert!(plain.dates().is_none());
    assert_eq!(opened(None), Ok(plain.clone()));
    let empty = opened(Some(&[])).unwrap();
    assert_eq!(empty.dates().map(Iterator::count), Some(0));
    for count in [0, 1, 2, 63, MOST_DATES] {
        let dates = rising(count);
        let book = opened(Some(&dates)).unwrap();
        assert!(book.dates().unwrap().eq(dates));
        // All else is as in the plain opening, with zeros behind the last day.
        let mut raw = plain.as_raw().clone();
        for (day, number) in raw.setup.days.iter_mut().zip(0..).take(count) {
            *day = number;
        }
        (raw.setup.count, raw.setup.dated) = (count.try_into().unwrap(), 1);
        assert_eq!(*book.as_raw(), raw);
    }
}

#[test]
fn refused() {
    let full = rising(MOST_DATES);
    assert_eq!(opened(Some(&rising(65))), Err(Refusal::SettingsDates));
    for place in [0, 1, 32, 63, 64] {
        let bad = with(&full, place, NEVER);
        assert_eq!(opened(Some(&bad)), Err(Refusal::SettingsDate), "{place}");
        let bad = with(&full[1..], place.min(63), NEVER);
        assert_eq!(opened(Some(&bad)), Err(Refusal::SettingsDate), "{place}");
    }
    let seventieth = with(&rising(69), 69, NEVER);
    assert_eq!(opened(Some(&seventieth)), Err(Refusal::SettingsDate));
    for place in [1, 2, 32, 63] {
        let twice = with(&full[1..], place, full[place]);
        assert_eq!(opened(Some(&twice)), Err(Refusal::SettingsDates), "{place}");
        let mut falling = full.clone();
        falling.swap(place - 1, place);
        assert_eq!(opened(Some(&falling)), Err(Refusal::SettingsDates));
        falling[63] = NEVER;
        assert_eq!(opened(Some(&falling)), Err(Refusal::SettingsDate));
    }
}

/// Numbers that are no dates, and parts that no number holds.
#[test]
fn no_dates() {
    let numbers = [
        0,
        1,
        19_691_231,
        24_000_101,
        20_260_431,
        20_261_301,
        20_260_001,
        20_260_100,
        20_260_132,
        120_261_225,
        675_621_225,
        u32::MAX,
    ];
    let unpacked = [
        (20_261, 2, 25),
        (2026, 100, 25),
        (2026, 12, 100),
        (2025, 112, 25),
        (u32::MAX, u32::MAX, u32::MAX),
    ];
    let unpacked = unpacked.map(|(year, month, day)| Date::new(year, month, day));
    assert_eq!(unpacked, [Date::from(0); 5]);
    for date in numbers.map(Date::from).into_iter().chain(unpacked) {
        assert_eq!(opened(Some(&[date])), Err(Refusal::SettingsDate), "{date}");
    }
}

/// A refused opening keeps every value, and the first no decides.
#[test]
fn over_a_book() {
    let full = rising(MOST_DATES);
    let mut book = opened(Some(&full)).unwrap();
    let time = Seconds(9);
    assert_eq!(book.apply(&SetClock { time }.command()).refused(), None);
    let before = book.clone();
    for (dates, refusal) in [
        (vec![NEVER; 65], Refusal::SettingsDate),
        (rising(65), Refusal::SettingsDates),
    ] {
        let settings = Settings::default().with_dates(&dates);
        let mut refused = |id: &[u8], settings: &Settings, refusal| {
            assert_eq!(book.reopen_with(id, settings), Err(refusal));
            assert_eq!(book, before);
        };
        refused(&ID, &settings, refusal);
        let fee = settings.clone().with_fee(HIGHEST_FEE + 1);
        refused(&ID, &fee, Refusal::SettingsFee);
        let delay = fee.with_delay(3_599);
        refused(&ID, &delay, Refusal::SettingsDelay);
        refused(&ID[1..], &delay, Refusal::Length);
    }
    // A list that is gone leaves nothing behind it.
    assert_eq!(book.reopen(&ID), Ok(()));
    assert_eq!(Ok(&book), Book::open(&ID).as_ref());
    let one = Settings::default().with_dates(&full[5..6]);
    assert_eq!(book.reopen_with(&ID, &one), Ok(()));
    assert_eq!(Ok(book), opened(Some(&full[5..6])));
}

/// Where there is no list, the numbers that are lent are not looked at.
#[test]
fn lent_without_a_list() {
    let numbers = [u32::MAX, 0, 20_261_225, 0, u32::MAX];
    let mut raw = opened(Some(&rising(9))).unwrap().as_raw().clone();
    let settings = raw::Settings {
        delay: 86_400,
        fee: 0,
        dated: false,
    };
    // SAFETY: the book is lent exclusively, and id and numbers are readable.
    let refusal = unsafe {
        raw::finaruvom_open_with(
            &raw mut raw,
            ID.as_ptr(),
            ID.len(),
            settings,
            numbers.as_ptr(),
            numbers.len(),
        )
    };
    assert_eq!(
        (refusal, Book::from_raw(raw)),
        (0, Book::open(&ID).unwrap())
    );
}

/// What an unsound book says of its dates is no more than stands there.
#[test]
fn of_an_unsound_book() {
    let mut raw = opened(Some(&rising(3))).unwrap().as_raw().clone();
    (raw.setup.count, raw.setup.days[1]) = (u32::MAX, u32::MAX);
    let book = Book::from_raw(raw.clone());
    assert_eq!(book.read(0), Err(Refusal::Unsound));
    assert_eq!(book.dates().map(Iterator::count), Some(MOST_DATES - 1));
    raw.setup.dated = 2;
    assert!(Book::from_raw(raw).dates().is_none());
}
