//! Dates, lists of them, and deadlines that they move.
use super::calendar::{self, given};
use crate::book::{Book, PLAIN_DEFAULT, PLAIN_RATE};
use crate::calendar::Date;

const ID: [u8; 16] = [7; 16];

fn date([year, month, day]: calendar::Date) -> Date {
    Date { year, month, day }
}

/// The answer to an opening with these dates, and the book after it.
fn opened(dates: Option<&[calendar::Date]>) -> (u8, Book) {
    let dates: Option<Vec<Date>> = dates.map(|dates| dates.iter().copied().map(date).collect());
    let mut book = Book::fresh([0; 16]);
    let refusal = book.open_with(&ID, PLAIN_DEFAULT, PLAIN_RATE, dates.as_deref());
    (refusal, book)
}

#[test]
fn days() {
    for it in given().days {
        assert_eq!(date(it.date).number(), it.number, "{:?}", it.date);
        let (refusal, book) = opened(Some(&[it.date]));
        match it.number {
            Some(number) => assert_eq!((refusal, book.shut.days), (0, vec![number])),
            None => assert_eq!((refusal, book), (21, Book::fresh([0; 16]))),
        }
    }
}

#[test]
fn lists() {
    for list in given().lists {
        let (refusal, book) = opened(list.dates.as_deref());
        assert_eq!(refusal, list.refusal, "{:?}", list.dates);
        let count = list.dates.as_ref().map_or(0, Vec::len);
        let expected = if refusal == 0 { count } else { 0 };
        assert_eq!(book.shut.days.len(), expected);
        let listed = refusal == 0 && list.dates.is_some();
        assert_eq!(book.shut.listed, u32::from(listed));
    }
}

#[test]
fn moved() {
    for moved in given().moved {
        let (refusal, book) = opened(moved.dates.as_deref());
        assert_eq!(refusal, 0);
        assert_eq!(book.shut.moved(moved.falls), moved.deadline);
    }
}
