//! The dates, lists and deadlines from outside.
use super::{opened, DAY};
use calendar::{given, Moved};
use finaruvom::command::{Establish, FundMerchant, MerchantClose, SetClock};
use finaruvom::{Book, Cents, Date, Refusal, Seconds, LONGEST_DELAY, SHORTEST_DELAY};
use oracle::Signer;

#[path = "../../../oracle/src/vectors/calendar.rs"]
mod calendar;

fn date([year, month, day]: calendar::Date) -> Date {
    Date::new(year, month, day)
}

fn dates(list: &[calendar::Date]) -> Vec<Date> {
    list.iter().copied().map(date).collect()
}

#[test]
fn days() {
    for it in given().days {
        let date = date(it.date);
        let Some(number) = it.number else {
            assert_eq!(opened(Some(&[date])), Err(Refusal::SettingsDate), "{date}");
            continue;
        };
        let book = opened(Some(&[date])).unwrap();
        let setup = &book.as_raw().setup;
        assert_eq!((setup.days[0], setup.count, setup.dated), (number, 1, 1));
        assert!(book.dates().unwrap().eq([date]));
        let midnight = DAY * u64::from(number);
        for second in [0, 1, DAY - 1] {
            assert_eq!(Seconds(midnight + second).date(), Some(date));
        }
    }
}

#[test]
fn lists() {
    for list in given().lists {
        let dates = list.dates.as_deref().map(dates);
        let opened = opened(dates.as_deref());
        let refusal = opened.as_ref().err().map_or(0, |it| it.number());
        assert_eq!(refusal, list.refusal, "{dates:?}");
        if let Ok(book) = opened {
            let kept = book.dates().map(Iterator::collect::<Vec<_>>);
            assert_eq!(kept, dates);
        }
    }
}

/// A merchant with one signature, that of an 08 to channel 0.
struct Merchant {
    key: [u8; 56],
    close: [u8; 1_455],
}

impl Merchant {
    fn new() -> Merchant {
        let signer = Signer::with_leaves([2; 32], [2; 16], &[0]);
        let close = MerchantClose { channel: 0 };
        let signature = signer.sign(0, &[3; 32], &close.message(&super::ID));
        Merchant {
            key: signer.key(),
            close: close.command(&signature),
        }
    }

    /// The deadline of a channel that the merchant closes at this clock.
    fn deadline(&self, mut book: Book, clock: u64, delay: u32) -> u64 {
        let establish = Establish {
            channel: 0,
            customer_key: Signer::with_leaves([1; 32], [1; 16], &[]).key(),
            merchant_key: self.key,
            customer: Cents(0),
            merchant: Cents(100),
            delay,
        };
        let fund = FundMerchant {
            channel: 0,
            amount: Cents(100),
        };
        let time = Seconds(clock);
        let clock = SetClock { time }.command();
        let establish = establish.command();
        for command in [&clock[..], &establish, &fund.command(), &self.close] {
            assert_eq!(book.apply(command).refused(), None);
        }
        assert_eq!(book.due(), Some(0));
        book.read(0).unwrap().deadline.0
    }
}

/// A clock and a delay with which a deadline falls on a second, where there are such.
fn before(falls: u64) -> Option<(u64, u32)> {
    let clocks = [SHORTEST_DELAY, LONGEST_DELAY]
        .map(|delay| Some((falls.checked_sub(u64::from(delay))?, delay)));
    let mut fitting = clocks.into_iter().flatten();
    fitting.find(|(clock, _)| *clock < 1 << 63)
}

#[test]
fn moved() {
    let merchant = Merchant::new();
    let mut reached = 0;
    for it in given().moved {
        let Moved {
            falls, deadline, ..
        } = it;
        let Some((clock, delay)) = before(falls) else {
            continue;
        };
        let dates = it.dates.as_deref().map(dates);
        let book = opened(dates.as_deref()).unwrap();
        assert_eq!(merchant.deadline(book, clock, delay), deadline, "{falls}");
        reached += 1;
    }
    // Second 0, and the one behind the last that a deadline can fall on, each with six lists.
    assert_eq!(reached, 270 - 12);
}
