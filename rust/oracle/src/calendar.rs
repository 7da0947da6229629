//! The Gregorian calendar, as far as document 02 No. 8 takes dates.
use std::ops::RangeInclusive;

/// Seconds of a day.
pub const DAY: u64 = 86_400;
/// The years of a date.
const YEARS: RangeInclusive<u32> = 1970..=2399;
/// Days from 1970-01-01 to 2399-12-31, both counted.
pub const DAYS: u32 = 157_054;

/// A year, a month and a day. Any numbers may stand there.
#[derive(Clone, Copy, Debug, PartialEq, Eq, PartialOrd, Ord)]
pub struct Date {
    /// The year.
    pub year: u32,
    /// The month, from 1 on.
    pub month: u32,
    /// The day of the month, from 1 on.
    pub day: u32,
}

impl Date {
    /// Whether the date exists, in one of the years.
    pub fn exists(&self) -> bool {
        YEARS.contains(&self.year)
            && (1..=12).contains(&self.month)
            && (1..=month_length(self.year, self.month)).contains(&self.day)
    }

    /// The days from 1970-01-01 to a date that exists.
    pub fn number(&self) -> Option<u32> {
        if !self.exists() {
            return None;
        }
        let years = (*YEARS.start()..self.year).map(year_length).sum::<u32>();
        let months = (1..self.month).map(|month| month_length(self.year, month));
        Some(years + months.sum::<u32>() + self.day - 1)
    }

    /// Every date that exists, one after the other.
    pub fn every() -> impl Iterator<Item = Date> {
        let months = YEARS.flat_map(|year| (1..=12).map(move |month| (year, month)));
        months.flat_map(|(year, month)| {
            (1..=month_length(year, month)).map(move |day| Date { year, month, day })
        })
    }
}

/// A day by its name.
#[derive(Clone, Copy, Debug, PartialEq, Eq)]
pub enum Weekday {
    Monday,
    Tuesday,
    Wednesday,
    Thursday,
    Friday,
    Saturday,
    Sunday,
}

impl Weekday {
    /// The seven days, from that of 1970-01-01 on.
    pub const FROM_THE_FIRST: [Weekday; 7] = [
        Weekday::Thursday,
        Weekday::Friday,
        Weekday::Saturday,
        Weekday::Sunday,
        Weekday::Monday,
        Weekday::Tuesday,
        Weekday::Wednesday,
    ];

    /// That of the day with this number.
    pub fn of(day: u64) -> Weekday {
        Weekday::FROM_THE_FIRST[(day % 7) as usize]
    }
}

/// Whether a year has a 29 February.
fn leap(year: u32) -> bool {
    match (year % 4, year % 100, year % 400) {
        (_, _, 0) => true,
        (_, 0, _) => false,
        (fourth, ..) => fourth == 0,
    }
}

/// The days of a month.
fn month_length(year: u32, month: u32) -> u32 {
    match month {
        2 if leap(year) => 29,
        2 => 28,
        4 | 6 | 9 | 11 => 30,
        _ => 31,
    }
}

/// The days of a year.
fn year_length(year: u32) -> u32 {
    (1..=12).map(|month| month_length(year, month)).sum()
}

#[cfg(test)]
mod tests {
    use super::*;

    fn date(year: u32, month: u32, day: u32) -> Date {
        Date { year, month, day }
    }

    /// Each date has the number after that of the one before it.
    #[test]
    fn every_date() {
        for (number, date) in (0..).zip(Date::every()) {
            assert_eq!(date.number(), Some(number), "{date:?}");
        }
        assert_eq!(Date::every().count(), DAYS as usize);
        assert_eq!(Date::every().next(), Some(date(1970, 1, 1)));
        assert_eq!(Date::every().last(), Some(date(2399, 12, 31)));
    }

    /// The years of the paper with a 29 February, of which 2000 is the only hundredth.
    #[test]
    fn leap_years() {
        let given = YEARS.filter(|year| date(*year, 2, 29).exists());
        let fourths = (1972..2400).step_by(4);
        let expected = fourths.filter(|year| ![2100, 2200, 2300].contains(year));
        assert!(given.eq(expected));
    }

    #[test]
    fn no_dates() {
        for (year, month, day) in [
            (1969, 12, 31),
            (2400, 1, 1),
            (2400, 2, 29),
            (0, 0, 0),
            (2026, 0, 1),
            (2026, 13, 1),
            (2026, 1, 0),
            (2026, 1, 32),
            (2026, 2, 29),
            (2028, 2, 30),
            (2026, 4, 31),
            (2026 + (1 << 16), 12, 25),
            (2026, 12 + (1 << 8), 25),
            (u32::MAX, u32::MAX, u32::MAX),
        ] {
            assert_eq!(date(year, month, day).number(), None);
        }
    }

    #[test]
    fn weekdays() {
        let of = |year, month, day| Weekday::of(date(year, month, day).number().unwrap().into());
        assert_eq!(of(1970, 1, 1), Weekday::Thursday);
        assert_eq!(of(2000, 2, 29), Weekday::Tuesday);
        assert_eq!(of(2026, 12, 25), Weekday::Friday);
        assert_eq!(of(2399, 12, 31), Weekday::Friday);
    }
}
