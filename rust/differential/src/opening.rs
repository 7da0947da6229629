//! How a book is opened.
use finaruvom::{Date, Settings};

/// An opening.
#[derive(Clone, Debug)]
pub enum Opening {
    Plain,
    With(Given),
}

/// What an opening is given, in the numbers of the boundary.
#[derive(Clone, Debug)]
pub struct Given {
    pub delay: u32,
    pub fee: u32,
    /// The list of dates, each year × 10,000 + month × 100 + day, if there is one.
    pub dates: Option<Vec<u32>>,
}

impl Given {
    /// What the settings of the library have, which have no list.
    pub fn of(settings: &Settings) -> Given {
        Given {
            delay: settings.delay,
            fee: settings.fee,
            dates: None,
        }
    }

    /// The same with a list.
    pub fn dated(self, dates: Vec<u32>) -> Given {
        Given {
            dates: Some(dates),
            ..self
        }
    }

    /// What a call makes of these as the wrapper's settings.
    pub fn settings<T>(&self, call: impl FnOnce(&Settings) -> T) -> T {
        let settings = Settings::default()
            .with_delay(self.delay)
            .with_fee(self.fee);
        match &self.dates {
            Some(numbers) => {
                let dates: Vec<Date> = numbers.iter().copied().map(Date::from).collect();
                call(&settings.with_dates(&dates))
            }
            None => call(&settings),
        }
    }

    /// The list as the oracle has it.
    pub fn list(&self) -> Option<Vec<oracle::Date>> {
        let dates = self.dates.as_ref()?;
        Some(dates.iter().copied().map(date).collect())
    }
}

impl Default for Given {
    /// What the plain opening is given.
    fn default() -> Given {
        Given::of(&Settings::default())
    }
}

/// The oracle's date of a number.
pub fn date(number: u32) -> oracle::Date {
    oracle::Date {
        year: number / 10_000,
        month: number / 100 % 100,
        day: number % 100,
    }
}
