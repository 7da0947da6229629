//! Dates: what openings make of them, how they move deadlines, and how they are shown.
mod given;
mod openings;
mod shown;

use finaruvom::{Book, Date, Refusal, Settings};

const ID: [u8; 16] = [7; 16];
const DAY: u64 = 86_400;

/// A book that is opened with these dates, or without a list.
fn opened(dates: Option<&[Date]>) -> Result<Book, Refusal> {
    let settings = Settings::default();
    match dates {
        Some(dates) => Book::open_with(&ID, &settings.with_dates(dates)),
        None => Book::open_with(&ID, &settings),
    }
}
