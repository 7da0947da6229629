//! Dates and weekdays as they are shown.
use super::DAY;
use finaruvom::{Date, Seconds, Weekday, DAYS};

#[test]
fn parts() {
    let date = Date::new(2026, 12, 5);
    assert_eq!((date.year(), date.month(), date.day()), (2026, 12, 5));
    assert_eq!((date.number(), Date::from(20_261_205)), (20_261_205, date));
    assert_eq!(date.to_string(), "2026-12-05");
    assert_eq!(format!("{date:?}"), "Date(20261205)");
    assert_eq!(Date::from(0).to_string(), "0000-00-00");
    assert_eq!(Date::new(9_999, 99, 99).to_string(), "9999-99-99");
}

/// Each day from its first second to its last, with the oracle's date and day of the week.
#[test]
fn every_day() {
    let mut days = 0;
    for (day, expected) in (0..).zip(oracle::Date::every()) {
        let date = Date::new(expected.year, expected.month, expected.day);
        let seconds = [DAY * day, DAY * day + DAY - 1].map(Seconds);
        assert_eq!(seconds.map(Seconds::date), [Some(date); 2]);
        let weekday = format!("{:?}", oracle::Weekday::of(day));
        assert_eq!(seconds.map(|it| it.weekday().to_string()), [&*weekday; 2]);
        days += 1;
    }
    assert_eq!(days, DAYS);
}

#[test]
fn after_the_last_date() {
    let end = DAY * u64::from(DAYS);
    for time in [end, end + DAY, 1 << 63, u64::MAX] {
        assert_eq!(Seconds(time).date(), None);
    }
    assert_eq!(Seconds(end).weekday(), Weekday::Saturday);
    assert_eq!(Seconds((1 << 63) - 1).weekday(), Weekday::Sunday);
}
