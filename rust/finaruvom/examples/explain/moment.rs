//! A time in words.
use finaruvom::Seconds;
use std::fmt;

/// Seconds of a minute, and minutes of an hour.
const SIXTY: u64 = 60;
const HOURS: u64 = 24;

/// A time, told by its day of the week, its date and its hour; after 2399 by its seconds.
pub struct Moment(pub Seconds);

impl fmt::Display for Moment {
    fn fmt(&self, f: &mut fmt::Formatter<'_>) -> fmt::Result {
        let Moment(time) = *self;
        let Some(date) = time.date() else {
            return write!(f, "{time} seconds");
        };
        let (weekday, minutes) = (time.weekday(), time.0 / SIXTY);
        let (hour, minute) = (minutes / SIXTY % HOURS, minutes % SIXTY);
        let second = time.0 % SIXTY;
        write!(f, "{weekday} {date} {hour:02}:{minute:02}:{second:02}")
    }
}
