//! Every call but a signer's on a thread with the stack that the documentation names; `signer.rs`
//! has those.
use finaruvom::bank::{self, Payee, Payment};
use finaruvom::command::{Establish, FundMerchant, MerchantClose, SetClock, Settle};
use finaruvom::{
    check, hash, Book, Cents, Date, Line, Refusal, Seconds, Settings, ENTRY_SIZE, LARGEST_AMOUNT,
    MOST_DATES,
};
use oracle::Signer;
use std::thread::Builder;

const STACK: usize = 96 * 1_024;

/// Everything that makes, changes or reads a book, or goes to the bank.
fn calls() -> Result<(), Refusal> {
    let mut book = Book::open(&[7; 16])?;
    book.reopen(&[8; 16])?;
    book.reopen_with(&[9; 16], &Settings::desk())?;
    let clock = SetClock { time: Seconds(9) };
    assert_eq!(book.apply(&clock.command()).refused(), None);
    let mut lines = [Line::default(); 4];
    let settle = Settle { channel: 0 }.command();
    let ran = book.run(&settle, &mut lines);
    assert_eq!(ran.lines, 1);
    assert_eq!(bank::collect(&settle, &lines, &mut [])?, 0);
    banks()?;
    assert_eq!(book.read(63)?.total.0, 0);
    assert_eq!(book.due(), None);
    assert_eq!(hash(&[0; 100])?.len(), 32);
    assert!(!check(&[0; 56], &[], &[0; 1_452])?.good);
    Ok(())
}

/// A payment written and read.
fn banks() -> Result<(), Refusal> {
    let payment = Payment {
        party: Payee::Merchant,
        channel: 63,
        amount: LARGEST_AMOUNT,
    };
    let mut buffer = [0; ENTRY_SIZE];
    assert_eq!(bank::write(&[payment], &mut buffer)?, 1);
    let mut list = [Payment::default()];
    assert_eq!(bank::read(&buffer, &mut list)?, 1);
    assert_eq!(list, [payment]);
    Ok(())
}

/// The first dates that there are, as many as an opening can be given.
fn dates() -> [Date; MOST_DATES] {
    let date = |day: u64| Seconds(86_400 * day).date();
    std::array::from_fn(|day| date(day as u64).expect("a date of 1970"))
}

/// A book made with settings, and its deadline after these commands.
fn opens(commands: &[Vec<u8>]) -> Result<Seconds, Refusal> {
    let dates = dates();
    let settings = Settings::desk().with_dates(&dates);
    let mut book = Book::open_with(&[7; 16], &settings)?;
    for command in commands {
        assert_eq!(book.apply(command).refused(), None);
    }
    Ok(book.read(0)?.deadline)
}

/// Channel 0 up to its merchant's closing.
fn closing() -> Vec<Vec<u8>> {
    let [customer, merchant] = [1, 2].map(|byte| Signer::with_leaves([byte; 32], [byte; 16], &[0]));
    let establish = Establish {
        channel: 0,
        customer_key: customer.key(),
        merchant_key: merchant.key(),
        customer: Cents(0),
        merchant: Cents(100),
        delay: 3_600,
    };
    let fund = FundMerchant {
        channel: 0,
        amount: Cents(100),
    };
    let close = MerchantClose { channel: 0 };
    let signature = merchant.sign(0, &[3; 32], &close.message(&[7; 16]));
    vec![
        establish.command().to_vec(),
        fund.command().to_vec(),
        close.command(&signature).to_vec(),
    ]
}

fn restores(stored: &[u8]) -> Result<Seconds, Refusal> {
    Ok(Book::from_bytes(stored)?.clock())
}

#[test]
fn small_stacks() {
    let stored = Book::open(&[7; 16]).unwrap().as_bytes().to_vec();
    let thread = || Builder::new().stack_size(STACK);
    let made = thread().spawn(calls).unwrap();
    assert_eq!(made.join().unwrap(), Ok(()));
    let commands = closing();
    let opened = thread().spawn(move || opens(&commands)).unwrap();
    // Day 64 is a Friday.
    assert_eq!(opened.join().unwrap(), Ok(Seconds(64 * 86_400)));
    let restored = thread().spawn(move || restores(&stored)).unwrap();
    assert_eq!(restored.join().unwrap(), Ok(Seconds(0)));
}
