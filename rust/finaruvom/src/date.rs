//! Dates: those that an opening is given, and that of a second.
use crate::numbered::numbered;
use crate::units::Seconds;
use core::fmt;

/// Seconds of a day.
const DAY: u64 = 86_400;
/// The first and the last year of a date.
const FIRST_YEAR: u32 = 1970;
const LAST_YEAR: u32 = 2399;

/// A date, as an opening is given it.
///
/// Any year, month and day can be put together: whether there is such a date, from 1970 to 2399,
/// the opening decides.
///
/// ```
/// use finaruvom::{Book, Date, Refusal, Settings};
///
/// let date = Date::new(2026, 12, 25);
/// assert_eq!((date.year(), date.month(), date.day()), (2026, 12, 25));
/// assert_eq!(date.number(), 20_261_225);
/// assert_eq!(date.to_string(), "2026-12-25");
/// assert!(date < Date::new(2027, 1, 1));
///
/// let never = [Date::new(2100, 2, 29)];
/// let settings = Settings::desk().with_dates(&never);
/// assert_eq!(Book::open_with(&[7; 16], &settings), Err(Refusal::SettingsDate));
/// ```
#[repr(transparent)]
#[derive(Clone, Copy, Debug, PartialEq, Eq, PartialOrd, Ord, Hash)]
pub struct Date(u32);

impl Date {
    /// The date of a year, a month and a day. Where one has more digits than it has places in the
    /// [`number`](Date::number), four and twice two, it is the number 0, which is no date.
    #[must_use]
    pub const fn new(year: u32, month: u32, day: u32) -> Date {
        match (year, month, day) {
            (0..=9_999, 0..=99, 0..=99) => Date(10_000 * year + 100 * month + day),
            _ => Date(0),
        }
    }

    /// Year × 10,000 + month × 100 + day.
    #[must_use]
    pub const fn number(self) -> u32 {
        self.0
    }

    /// The year.
    #[must_use]
    pub const fn year(self) -> u32 {
        self.0 / 10_000
    }

    /// The month, 1 to 12.
    #[must_use]
    pub const fn month(self) -> u32 {
        self.0 / 100 % 100
    }

    /// The day of the month, from 1 on.
    #[must_use]
    pub const fn day(self) -> u32 {
        self.0 % 100
    }

    /// The date so many days after 1970-01-01; none after 2399-12-31.
    pub(crate) const fn of_day(day: u64) -> Option<Date> {
        let (mut left, mut year, mut month) = (day, FIRST_YEAR, 1);
        while left >= month_length(year, month) {
            left -= month_length(year, month);
            (year, month) = match month {
                12 if year == LAST_YEAR => return None,
                12 => (year + 1, 1),
                _ => (year, month + 1),
            };
        }
        #[expect(clippy::cast_possible_truncation, reason = "it is below 31")]
        let before = left as u32;
        Some(Date::new(year, month, before + 1))
    }
}

impl From<u32> for Date {
    /// The date with this number, which may be none.
    fn from(number: u32) -> Date {
        Date(number)
    }
}

impl fmt::Display for Date {
    fn fmt(&self, f: &mut fmt::Formatter<'_>) -> fmt::Result {
        let (year, month, day) = (self.year(), self.month(), self.day());
        write!(f, "{year:04}-{month:02}-{day:02}")
    }
}

numbered! {
    /// A day of the week, by its number in ISO 8601.
    ///
    /// ```
    /// use finaruvom::{Seconds, Weekday};
    ///
    /// assert_eq!(Seconds(0).weekday(), Weekday::Thursday);
    /// assert_eq!(Weekday::Thursday.number(), 4);
    /// assert_eq!(Weekday::Thursday.to_string(), "Thursday");
    /// ```
    Weekday: u8 {
        Monday = 1: "Monday",
        Tuesday = 2: "Tuesday",
        Wednesday = 3: "Wednesday",
        Thursday = 4: "Thursday",
        Friday = 5: "Friday",
        Saturday = 6: "Saturday",
        Sunday = 7: "Sunday",
    }
}

impl Seconds {
    /// The date of this time; none after 2399-12-31.
    ///
    /// ```
    /// use finaruvom::{Date, Seconds};
    ///
    /// assert_eq!(Seconds(1_798_192_800).date(), Some(Date::new(2026, 12, 25)));
    /// assert_eq!(Seconds(13_569_465_599).date(), Some(Date::new(2399, 12, 31)));
    /// assert_eq!(Seconds(13_569_465_600).date(), None);
    /// ```
    #[must_use]
    pub const fn date(self) -> Option<Date> {
        Date::of_day(self.0 / DAY)
    }

    /// The day of the week of this time, also after 2399.
    #[must_use]
    pub const fn weekday(self) -> Weekday {
        match self.0 / DAY % 7 {
            0 => Weekday::Thursday,
            1 => Weekday::Friday,
            2 => Weekday::Saturday,
            3 => Weekday::Sunday,
            4 => Weekday::Monday,
            5 => Weekday::Tuesday,
            _ => Weekday::Wednesday,
        }
    }
}

/// The days of a month.
const fn month_length(year: u32, month: u32) -> u64 {
    let leap = year.is_multiple_of(4) && !year.is_multiple_of(100) || year.is_multiple_of(400);
    match month {
        2 if leap => 29,
        2 => 28,
        4 | 6 | 9 | 11 => 30,
        _ => 31,
    }
}
