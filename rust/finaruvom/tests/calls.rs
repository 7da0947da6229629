//! What the wrapper makes of the library's numbers.
mod parties;

use finaruvom::command::{Establish, SetClock, Settle};
use finaruvom::raw::finaruvom_apply;
use finaruvom::{
    check, hash, Answer, Book, Cause, Cents, Line, Payments, Ran, Reading, Refusal, Seconds,
    Settings, Status, Verdict, HIGHEST_FEE,
};

/// A command that sets the clock.
fn clock(time: u64) -> [u8; 9] {
    SetClock {
        time: Seconds(time),
    }
    .command()
}

#[test]
fn hashes() {
    let digest = hash(b"abc").unwrap();
    assert_eq!(digest[..4], [0xba, 0x78, 0x16, 0xbf]);
    assert_eq!(hash(&[]).unwrap()[..4], [0xe3, 0xb0, 0xc4, 0x42]);
    let bytes = vec![0; 65_537];
    assert!(hash(&bytes[1..]).is_ok());
    assert_eq!(hash(&bytes), Err(Refusal::Length));
}

#[test]
fn checks() {
    let no = Verdict {
        good: false,
        steps: 0,
        leaf: 0,
    };
    assert_eq!(check(&[], &[0; 1_024], &[]), Ok(no));
    assert_eq!(check(&[], &[0; 1_025], &[]), Err(Refusal::Length));
}

#[test]
fn openings() {
    let mut book = Book::open(&[7; 16]).unwrap();
    assert_eq!(book.id(), &[7; 16]);
    assert_eq!(book.apply(&clock(9)).refused(), None);
    let stored = book.as_raw().clone();
    assert_eq!(book.reopen(&[7; 15]), Err(Refusal::Length));
    assert_eq!(Book::from_raw(stored), book);
    assert_eq!(book.reopen(&[7; 16]), Ok(()));
    assert_eq!(Ok(book), Book::open(&[7; 16]));
    assert_eq!(Book::open(&[7; 17]), Err(Refusal::Length));
}

#[test]
fn openings_with_settings() {
    let open = |length: usize, delay| {
        Book::open_with(&vec![7; length], &Settings::default().with_delay(delay))
    };
    for delay in [3_600, 86_400, 172_800, 2_592_000] {
        let book = open(16, delay).unwrap();
        assert_eq!(book.default_delay(), Seconds(u64::from(delay)));
        let mut plain = book.as_raw().clone();
        plain.setup.delay = 86_400;
        assert_eq!(Book::open(&[7; 16]), Ok(Book::from_raw(plain)));
        assert_eq!(open(15, delay), Err(Refusal::Length));
    }
    for delay in [0, 3_599, 2_592_001, u32::MAX] {
        assert_eq!(open(16, delay), Err(Refusal::SettingsDelay));
        assert_eq!(open(15, delay), Err(Refusal::Length));
    }
}

#[test]
fn openings_with_a_fee() {
    let open = |length: usize, settings: &Settings| Book::open_with(&vec![7; length], settings);
    assert_eq!(open(16, &Settings::desk()).unwrap().fee(), 0);
    for fee in [0, 1, 250, HIGHEST_FEE] {
        let book = open(16, &Settings::default().with_fee(fee)).unwrap();
        assert_eq!((book.fee(), book.default_delay()), (fee, Seconds(86_400)));
        let mut plain = book.as_raw().clone();
        plain.setup.fee = 0;
        assert_eq!(Book::open(&[7; 16]), Ok(Book::from_raw(plain)));
    }
    for fee in [HIGHEST_FEE + 1, 10_000, 1 << 16, u32::MAX] {
        let settings = Settings::default().with_fee(fee);
        assert_eq!(open(16, &settings), Err(Refusal::SettingsFee));
        assert_eq!(open(15, &settings), Err(Refusal::Length));
        // The default delay is looked at before the fee, and the id before both.
        let both = settings.with_delay(3_599);
        assert_eq!(open(16, &both), Err(Refusal::SettingsDelay));
        assert_eq!(open(17, &both), Err(Refusal::Length));
    }
}

#[test]
fn openings_over_a_book() {
    let mut book = Book::open_with(&[7; 16], &Settings::desk()).unwrap();
    assert_eq!(book.apply(&clock(9)).refused(), None);
    let before = book.clone();
    let none = Settings::default().with_delay(0);
    assert_eq!(
        book.reopen_with(&[8; 16], &none),
        Err(Refusal::SettingsDelay)
    );
    assert_eq!(book.reopen_with(&[8; 17], &none), Err(Refusal::Length));
    let more = Settings::desk().with_fee(1_001);
    assert_eq!(book.reopen_with(&[8; 16], &more), Err(Refusal::SettingsFee));
    assert_eq!(book, before);
    let fee = Settings::desk().with_fee(1_000);
    assert_eq!(book.reopen_with(&[8; 16], &fee), Ok(()));
    assert_eq!((book.clock(), book.fee()), (Seconds(0), 1_000));
    assert_ne!(Ok(book.clone()), Book::open(&[8; 16]));
    assert_eq!(book.reopen(&[8; 16]), Ok(()));
    assert_eq!(Ok(book), Book::open(&[8; 16]));
}

/// The delay of a channel that was established with this one.
fn established(settings: &Settings, delay: u32) -> u32 {
    let [customer_key, merchant_key] = parties::keys();
    let establish = Establish {
        channel: 1,
        customer_key,
        merchant_key,
        customer: Cents(900),
        merchant: Cents(100),
        delay,
    };
    let mut book = Book::open_with(&[7; 16], settings).unwrap();
    assert_eq!(book.apply(&establish.command()).refused(), None);
    book.as_raw().channels[1].delay
}

#[test]
fn defaults() {
    assert_eq!(established(&Settings::default(), 0), 86_400);
    assert_eq!(established(&Settings::desk(), 0), 172_800);
    assert_eq!(
        established(&Settings::default().with_delay(3_601), 0),
        3_601
    );
    assert_eq!(established(&Settings::desk(), 3_600), 3_600);
}

#[test]
fn answers() {
    let mut book = Book::open(&[7; 16]).unwrap();
    let accepted = book.apply(&clock(9));
    assert_eq!(accepted, Answer::default());
    assert_eq!(accepted.paid(), Ok(Payments::default()));
    assert_eq!((accepted.refused(), accepted.steps()), (None, 0));
    let refused = book.apply(&clock(8));
    assert_eq!(refused.paid(), Err(Refusal::Time));
    assert_eq!(refused.refused(), Some(Refusal::Time));
    let mut raw = book.as_raw().clone();
    let command = clock(8);
    // SAFETY: the book is lent exclusively and the command is readable.
    let answer = unsafe { finaruvom_apply(&raw mut raw, command.as_ptr(), command.len()) };
    assert_eq!(*refused.as_raw(), answer);
    assert_eq!(format!("{refused:?}"), format!("{answer:?}"));
}

/// A book with this fee in which channel 1 is settled for a merchant who has 1,000.
fn settling(fee: u32) -> Book {
    let book = Book::open_with(&[7; 16], &Settings::default().with_fee(fee)).unwrap();
    let mut raw = book.as_raw().clone();
    raw.channels[1].status = 4;
    raw.channels[1].delay = 3_600;
    raw.channels[1].merchant.deposit = Cents(1_000);
    Book::from_raw(raw)
}

#[test]
fn fees() {
    for (fee, kept) in [(0, 0), (9, 0), (10, 1), (250, 25), (999, 99), (1_000, 100)] {
        let mut book = settling(fee);
        let answer = book.apply(&Settle { channel: 1 }.command());
        let paid = Payments {
            customer: Cents(0),
            merchant: Cents(1_000 - kept),
            fee: Cents(kept),
        };
        assert_eq!(answer.paid(), Ok(paid));
        assert_eq!(answer.as_raw().fee, Cents(kept));
        assert_eq!(book.fee(), fee);
        let again = book.apply(&Settle { channel: 1 }.command());
        assert_eq!(again.paid(), Err(Refusal::Status));
        assert_eq!(again.as_raw().fee, Cents(0));
    }
}

#[test]
fn readings() {
    let book = Book::open(&[7; 16]).unwrap();
    let unused = Reading {
        status: Status::Unused,
        total: Cents(0),
        held: Cents(0),
        deadline: Seconds(0),
        kept: Cents(0),
        lock: [0; 32],
    };
    assert_eq!(book.read(0), Ok(unused));
    assert_eq!(book.read(63), Ok(unused));
    assert_eq!(book.read(64), Err(Refusal::Channel));
    assert_eq!(book.read(usize::MAX), Err(Refusal::Channel));
    assert_eq!(book.due(), None);
}

#[test]
fn runs() {
    let settle = Settle { channel: 64 }.command();
    let journal = [&clock(9)[..], &settle, &clock(8), &[0x0b]].concat();
    let run = |bytes: usize, count: usize| {
        let mut lines = vec![Line::default(); count];
        let ran = Book::open(&[7; 16])
            .unwrap()
            .run(&journal[..bytes], &mut lines);
        let refusals: Vec<_> = lines.iter().map(|line| line.answer.refused()).collect();
        (ran, refusals)
    };
    let ran = |lines, used, cause| Ran { lines, used, cause };
    let refusals = vec![None, Some(Refusal::Channel), Some(Refusal::Time)];
    assert_eq!(run(0, 0).0, ran(0, 0, Cause::NoBytes));
    assert_eq!(run(22, 0).0, ran(0, 0, Cause::NoLine));
    assert_eq!(run(22, 2).0, ran(2, 12, Cause::NoLine));
    assert_eq!(run(20, 3).0, ran(2, 12, Cause::CutShort));
    assert_eq!(run(21, 3), (ran(3, 21, Cause::NoBytes), refusals));
    assert_eq!(run(22, 4).0, ran(3, 21, Cause::UnknownByte));
}

#[test]
fn refusals_by_number() {
    let numbers = [
        (Refusal::Unknown, 1),
        (Refusal::Length, 2),
        (Refusal::Time, 3),
        (Refusal::Channel, 4),
        (Refusal::Status, 5),
        (Refusal::Keys, 6),
        (Refusal::Delay, 7),
        (Refusal::Cents, 8),
        (Refusal::Deadline, 9),
        (Refusal::Secret, 10),
        (Refusal::Merchant, 11),
        (Refusal::Customer, 12),
        (Refusal::SettingsDelay, 14),
        (Refusal::NoLeaf, 15),
        (Refusal::SpentLeaf, 16),
        (Refusal::Payment, 17),
        (Refusal::Room, 18),
        (Refusal::Entry, 19),
        (Refusal::SettingsFee, 20),
        (Refusal::SettingsDate, 21),
        (Refusal::SettingsDates, 22),
        (Refusal::Unsound, 99),
    ];
    for (refusal, number) in numbers {
        assert_eq!(refusal.number(), number);
        assert_eq!(Refusal::try_from(number), Ok(refusal));
    }
    let known = (0..=u8::MAX).filter(|number| Refusal::try_from(*number).is_ok());
    assert_eq!(known.count(), numbers.len());
}
