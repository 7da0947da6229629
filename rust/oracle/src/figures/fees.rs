//! The figures of document 02 No. 7 on a book.
use super::parties::{numbers, Parties, ID, SECRET};
use crate::bank::{self, Payment};
use crate::book::{Book, HIGHEST_RATE, LARGEST, PLAIN_DEFAULT};
use crate::journal::run;
use crate::machine::{apply, Answer};
use crate::reading::{due, read};

/// A fresh book of this rate.
fn opened(rate: u32) -> Book {
    let mut book = Book::fresh([0; 16]);
    assert_eq!(book.open_with(&ID, PLAIN_DEFAULT, rate, None), 0);
    book
}

/// What is paid to customer and merchant, and the fee, by each command on a book of this rate.
fn paid(rate: u32, commands: &[Vec<u8>]) -> Vec<[u64; 3]> {
    let mut book = opened(rate);
    let paid = |command: &Vec<u8>| {
        let answer = apply(&mut book, command);
        assert_eq!(answer.refusal, 0);
        [answer.customer, answer.merchant, answer.fee]
    };
    commands.iter().map(paid).collect()
}

/// What the last commands pay, behind those that open the channel.
fn paid_at_last(rate: u32, parties: &Parties, last: &[Vec<u8>]) -> Vec<[u64; 3]> {
    let commands = [&parties.funding(3_600), last].concat();
    paid(rate, &commands).split_off(3)
}

/// 07's b and the kept c of a later 09 are two payments, and have two fees.
#[test]
fn disputed() {
    let parties = Parties::new();
    let commands = [parties.close(), parties.signed(9, &SECRET, 1)];
    let paid = |rate| paid_at_last(rate, &parties, &commands);
    assert_eq!(paid(0), [[0, 300, 0], [0, 700, 0]]);
    assert_eq!(paid(250), [[0, 293, 7], [0, 683, 17]]);
    assert_eq!(paid(1_000), [[0, 270, 30], [0, 630, 70]]);
}

#[test]
fn closed_by_both() {
    let parties = Parties::new();
    let close = [parties.signed(6, &numbers(400, 600), 0)];
    let paid = |rate| paid_at_last(rate, &parties, &close);
    assert_eq!(paid(0), [[400, 600, 0]]);
    assert_eq!(paid(250), [[400, 585, 15]]);
}

/// The customer pays no fee.
#[test]
fn settled() {
    let parties = Parties::new();
    let clock = [&[1][..], &3_600u64.to_be_bytes()].concat();
    let settle = vec![0x0a, 0, 0];
    let after = |close| paid_at_last(1_000, &parties, &[close, clock.clone(), settle.clone()]);
    assert_eq!(after(parties.close()), [[0, 270, 30], [0; 3], [700, 0, 0]]);
    let close = parties.signed(8, &[], 0);
    assert_eq!(after(close), [[0; 3], [0; 3], [0, 900, 100]]);
}

/// A channel that is to be settled for the merchant pays its whole total.
fn settling(rate: u32, total: u64) -> Book {
    let mut book = opened(rate);
    book.channels[0].status = 4;
    book.channels[0].delay = 3_600;
    book.channels[0].merchant.deposit = total;
    book
}

#[test]
fn edges() {
    let settled = |rate, total| {
        let answer = apply(&mut settling(rate, total), &[0x0a, 0, 0]);
        assert_eq!((answer.refusal, answer.customer), (0, 0));
        [answer.merchant, answer.fee]
    };
    assert_eq!(settled(1, 9_999), [9_999, 0]);
    assert_eq!(settled(1, 10_000), [9_999, 1]);
    assert_eq!(settled(1_000, 9), [9, 0]);
    let tenth = 922_337_203_685_477_580;
    assert_eq!(settled(1_000, LARGEST), [LARGEST - tenth, tenth]);
}

/// The answer to an opening over a used book, which keeps every value where it is refused.
fn reopened(id: &[u8], default_delay: u32, rate: u32) -> u8 {
    let mut book = settling(250, 1_000);
    let before = book.clone();
    let refusal = book.open_with(id, default_delay, rate, None);
    let fresh = Book {
        default_delay,
        rate,
        ..Book::fresh(ID)
    };
    assert_eq!(book, if refusal == 0 { fresh } else { before });
    refusal
}

#[test]
fn openings() {
    for rate in 0..=HIGHEST_RATE {
        assert_eq!(reopened(&ID, PLAIN_DEFAULT, rate), 0);
    }
    for rate in [1_001, 10_000, 1 << 16, u32::MAX] {
        assert_eq!(reopened(&ID, PLAIN_DEFAULT, rate), 20);
        for delay in [0, 3_599, 2_592_001, u32::MAX] {
            assert_eq!(reopened(&ID, delay, rate), 14);
            assert_eq!(reopened(&ID[1..], delay, rate), 2);
        }
        assert_eq!(reopened(&ID[1..], PLAIN_DEFAULT, rate), 2);
    }
    let mut book = opened(250);
    assert_eq!((book.open(&ID), book.rate), (0, 0));
    assert_eq!(book, Book::fresh(ID));
}

#[test]
fn sound() {
    for (rate, refusal) in [(0, 0), (1_000, 0), (1_001, 99), (u32::MAX, 99)] {
        let mut book = settling(0, 1_000);
        book.rate = rate;
        assert_eq!(book.sound(), refusal == 0);
        assert_eq!(read(&book, 0).refusal, refusal);
        assert_eq!(due(&book), (refusal == 0).then_some(0));
        assert_eq!(apply(&mut book, &[0x0a, 0, 0]).refusal, refusal);
    }
}

#[test]
fn refused() {
    let no = |book: &mut Book, command: &[u8], refusal| {
        let expected = Answer {
            refusal,
            ..Answer::default()
        };
        assert_eq!(apply(book, command), expected);
    };
    let mut book = settling(1_000, LARGEST);
    book.channels[0].deadline = 1;
    no(&mut book, &[0x0a, 0, 0], 9);
    no(&mut book, &[0x0a, 0, 1], 5);
    book.rate = 1_001;
    no(&mut book, &[0x0a, 0, 0], 99);
}

/// Of 1,000 at a rate of 250 the bank is told 975: the fee is a payment to neither party.
#[test]
fn collected() {
    let mut lines = [Answer::default(); 1];
    let settle = [0x0a, 0, 0];
    assert_eq!(run(&mut settling(250, 1_000), &settle, &mut lines).lines, 1);
    assert_eq!((lines[0].merchant, lines[0].fee), (975, 25));
    let payment = |amount| Payment {
        party: 2,
        channel: 0,
        amount,
    };
    let mut list = [payment(1); 2];
    assert_eq!(bank::collect(&settle, &lines, &mut list).payments, 1);
    assert_eq!(list, [payment(975), payment(1)]);
}
