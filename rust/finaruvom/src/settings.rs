//! What an opening is given.
use crate::date::Date;
use crate::raw;

/// What an opening is given: [`Settings::default`] has what the plain opening has,
/// [`Settings::desk`] what the desk gives for a new book. Later versions may have more fields, so
/// start from one of these.
///
/// ```
/// use finaruvom::{Date, Settings, DESK_DELAY, PLAIN_DELAY};
///
/// let (plain, desk) = (Settings::default(), Settings::desk());
/// assert_eq!((plain.delay, plain.fee, plain.dates), (PLAIN_DELAY, 0, None));
/// assert_eq!((desk.delay, desk.fee, desk.dates), (DESK_DELAY, 0, None));
/// let holidays = [Date::new(2026, 12, 25), Date::new(2027, 1, 1)];
/// let agreed = desk.with_delay(3_600).with_fee(250).with_dates(&holidays);
/// assert_eq!((agreed.delay, agreed.fee), (3_600, 250));
/// assert_eq!(agreed.dates, Some(&holidays[..]));
/// ```
#[must_use]
#[non_exhaustive]
#[derive(Clone, Debug, PartialEq, Eq, Hash)]
pub struct Settings<'a> {
    /// Seconds that a delay of 0 in [`Establish`](crate::command::Establish) stands for, 3,600 to
    /// 2,592,000.
    pub delay: u32,
    /// Ten-thousandths of each payment to a merchant that the desk keeps, at most 1,000.
    pub fee: u32,
    /// The dates on which the bank is shut, at most [`MOST_DATES`](crate::MOST_DATES) and strictly
    /// rising. With a list, Saturdays and Sundays are shut too, with an empty one these alone;
    /// without one no day is.
    pub dates: Option<&'a [Date]>,
}

impl Settings<'_> {
    /// What the desk gives for a new book: a delay of 0 stands for two days, there is no fee and no
    /// list of dates.
    pub fn desk() -> Self {
        // SAFETY: nothing is lent.
        Settings::of_library(unsafe { raw::finaruvom_desk_settings() })
    }

    /// The same with another default delay.
    pub const fn with_delay(mut self, delay: u32) -> Self {
        self.delay = delay;
        self
    }

    /// The same with another fee.
    pub const fn with_fee(mut self, fee: u32) -> Self {
        self.fee = fee;
        self
    }

    /// The same with a list of shut dates, which is lent until the opening.
    pub const fn with_dates(self, dates: &[Date]) -> Settings<'_> {
        Settings {
            delay: self.delay,
            fee: self.fee,
            dates: Some(dates),
        }
    }

    /// Settings of the library. A list there would be an empty one.
    const fn of_library(raw: raw::Settings) -> Self {
        let raw::Settings { delay, fee, dated } = raw;
        let dates: Option<&[Date]> = if dated { Some(&[]) } else { None };
        Settings { delay, fee, dates }
    }

    /// The settings as the boundary has them, which takes the dates beside.
    pub(crate) const fn to_raw(&self) -> raw::Settings {
        raw::Settings {
            delay: self.delay,
            fee: self.fee,
            dated: self.dates.is_some(),
        }
    }
}

impl Default for Settings<'_> {
    /// What the plain opening is given: a delay of 0 stands for a day, there is no fee and no list
    /// of dates.
    fn default() -> Self {
        // SAFETY: nothing is lent.
        Settings::of_library(unsafe { raw::finaruvom_plain_settings() })
    }
}
