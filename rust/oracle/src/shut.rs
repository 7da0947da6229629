//! The days on which the bank is shut, of document 02 No. 8, and the deadlines that fall on them.
use crate::calendar::{Date, Weekday, DAY, DAYS};

/// Dates that an opening can be given.
pub const MOST_DATES: usize = 64;

/// What is shut in a book. Any numbers may stand there.
#[derive(Clone, Debug, PartialEq, Eq)]
pub struct Shut {
    /// 1 where the opening was given a list of dates, 0 where it was given none.
    pub listed: u32,
    /// The day numbers of the list.
    pub days: Vec<u32>,
}

impl Shut {
    /// No list: no day is shut.
    pub const NONE: Shut = Shut {
        listed: 0,
        days: Vec::new(),
    };

    /// What a list of dates shuts. A date that doesn't exist gives 21, then more than 64 of them or
    /// one that is not later than the one before it 22.
    pub fn of(dates: &[Date]) -> Result<Shut, u8> {
        let days: Option<Vec<u32>> = dates.iter().map(Date::number).collect();
        let days = days.ok_or(21)?;
        if days.len() > MOST_DATES || !rising(&days) {
            return Err(22);
        }
        Ok(Shut { listed: 1, days })
    }

    /// Whether a sound book may have this list, which has the limits of an opening's.
    pub fn sound(&self) -> bool {
        self.listed <= 1
            && self.days.len() <= MOST_DATES
            && self.days.iter().all(|day| *day < DAYS)
            && rising(&self.days)
    }

    /// Whether the bank is shut on a day: with a list, on Saturdays, Sundays and its dates.
    pub fn has(&self, day: u64) -> bool {
        let weekend = matches!(Weekday::of(day), Weekday::Saturday | Weekday::Sunday);
        let named = self.days.iter().any(|named| u64::from(*named) == day);
        self.listed == 1 && (weekend || named)
    }

    /// The deadline for one that falls on this second: the same on a day that is not shut, else
    /// 00:00:00 of the next such day.
    pub fn moved(&self, time: u64) -> u64 {
        let mut day = time / DAY;
        if !self.has(day) {
            return time;
        }
        while self.has(day) {
            day += 1;
        }
        DAY * day
    }
}

/// Whether each number is larger than the one before it.
fn rising(days: &[u32]) -> bool {
    days.windows(2).all(|pair| pair[0] < pair[1])
}
