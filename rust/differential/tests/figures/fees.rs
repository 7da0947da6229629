//! Document 02 No. 7: a desk fee. Of each payment to the merchant the desk keeps the whole part of
//! amount × r / 10,000.
use crate::case::NOBODY;
use crate::desk::{charged, paid, plan, refused, Desk, ID};
use finaruvom::raw::Answer;
use finaruvom::{Book, Cents, Refusal, Settings, HIGHEST_FEE};

/// The largest total.
const LARGEST: u64 = (1 << 63) - 1;

/// Amounts and differences at the edges of a cent of fee, and of what a channel holds.
const EDGES: [u64; 9] = [0, 1, 9, 10, 9_999, 10_000, 10_001, LARGEST / 2, LARGEST];

/// A fresh book with this fee.
fn book(fee: u32) -> Book {
    Book::open_with(&ID, &Settings::default().with_fee(fee)).unwrap()
}

/// A desk with this fee, and the commands that it carries out one after the other, without a fee.
fn desk(fee: u32, commands: &[(u8, [u64; 2])]) -> Desk {
    let mut desk = Desk { book: book(fee) }.at(1_000);
    for (opcode, numbers) in commands {
        assert_eq!(desk.give(*opcode, *numbers), paid(0, 0), "{opcode:02X}");
    }
    desk
}

/// The channel open.
fn open(fee: u32) -> Desk {
    desk(fee, &[(2, [900, 100]), (3, [900, 0]), (4, [100, 0])])
}

/// The channel closed by the merchant.
fn merchant_closing(fee: u32) -> Desk {
    let commands = [(2, [900, 100]), (3, [900, 0]), (4, [100, 0]), (8, [0, 0])];
    desk(fee, &commands)
}

/// The answer to the settling of a channel for the merchant that has this total.
fn settled(fee: u32, total: u64) -> Answer {
    let mut raw = book(fee).as_raw().clone();
    raw.channels[0].status = 4;
    raw.channels[0].delay = 3_600;
    raw.channels[0].merchant.deposit = Cents(total);
    let book = Book::from_raw(raw);
    Desk { book }.give(0x0a, [0, 0])
}

/// 07's b and the kept c of a later 09 are two payments, with two fees: 24 together, and not 25.
#[test]
fn each_payment_by_itself() {
    let mut desk = open(250);
    assert_eq!(desk.give(0x07, [700, 300]), charged(0, 293, 7));
    assert_eq!(desk.book.read(0).unwrap().held, Cents(700));
    assert_eq!(desk.give(0x09, [0, 0]), charged(0, 683, 17));
    assert_eq!(desk.book.read(0).unwrap().held, Cents(0));

    let mut desk = merchant_closing(250);
    assert_eq!(desk.give(0x07, [700, 300]), charged(0, 293, 7));
    assert_eq!(desk.give(0x09, [0, 0]), charged(0, 683, 17));
    let mut desk = merchant_closing(250).at(4_600);
    assert_eq!(desk.give(0x0a, [0, 0]), charged(0, 975, 25));
}

#[test]
fn the_customer_pays_none() {
    let mut funded = desk(1_000, &[(2, [900, 100]), (3, [900, 0])]);
    assert_eq!(funded.give(0x05, [0, 0]), paid(900, 0));
    assert_eq!(open(1_000).give(0x06, [1_000, 0]), paid(1_000, 0));
    let mutual = open(250).give(0x06, [400, 600]);
    assert_eq!(mutual, charged(400, 585, 15));
    let mut closing = open(1_000);
    assert_eq!(closing.give(0x07, [700, 300]), charged(0, 270, 30));
    assert_eq!(closing.at(4_600).give(0x0a, [0, 0]), paid(700, 0));
}

#[test]
fn edges() {
    assert_eq!(settled(1, 9_999), paid(0, 9_999));
    assert_eq!(settled(1, 10_000), charged(0, 9_999, 1));
    assert_eq!(settled(1_000, 9), paid(0, 9));
    assert_eq!(settled(1_000, 10), charged(0, 9, 1));
    let tenth = 922_337_203_685_477_580;
    assert_eq!(settled(1_000, LARGEST), charged(0, LARGEST - tenth, tenth));
    let share = 922_337_203_685_477;
    assert_eq!(settled(1, LARGEST), charged(0, LARGEST - share, share));
    assert_eq!(settled(0, LARGEST), paid(0, LARGEST));
}

/// At every rate a fee of whole cents, and no cent more.
#[test]
fn whole_part() {
    for rate in 0..=HIGHEST_FEE {
        for total in EDGES {
            let answer = settled(rate, total);
            let [merchant, fee] = [answer.merchant.0, answer.fee.0].map(u128::from);
            let product = u128::from(total) * u128::from(rate);
            assert_eq!(answer.customer, Cents(0));
            assert_eq!(merchant + fee, u128::from(total), "{total} at {rate}");
            assert_eq!(product / 10_000, fee, "{total} at {rate}");
        }
    }
}

/// The bound for bakeries: an amount larger by d cents raises the fee by at least the whole part of
/// d × r / 10,000, and by at most one cent more.
#[test]
fn bound() {
    for rate in (0..=HIGHEST_FEE).step_by(37).chain([1, 250, HIGHEST_FEE]) {
        let pairs = EDGES.iter().flat_map(|amount| EDGES.map(|d| (*amount, d)));
        for (amount, d) in pairs.filter(|(amount, d)| amount + d <= LARGEST) {
            let [before, after] = [amount, amount + d].map(|total| settled(rate, total).fee.0);
            let least = u128::from(d) * u128::from(rate) / 10_000;
            let raise = u128::from(after - before);
            assert!(
                raise == least || raise == least + 1,
                "{amount}, {d}, {rate}"
            );
        }
    }
}

/// A refused command has no fee, whatever it would have paid.
#[test]
fn refused_commands() {
    let mut desk = open(1_000);
    assert_eq!(desk.give(0x06, [400, 601]), refused(8));
    let mut close = plan(0x06, [400, 600]);
    close.signers[1].party = NOBODY;
    let command = close.write(|_, _| [0; oracle::SIGNATURE]);
    assert_eq!(*desk.book.apply(&command).as_raw(), refused(11));
    assert_eq!(desk.give(0x07, [700, 300]), charged(0, 270, 30));
    assert_eq!(desk.give(0x0a, [0, 0]), refused(9));
    assert_eq!(desk.at(4_600).give(0x09, [0, 0]), refused(9));
}

/// The fee is the book's when it pays, and no command changes it.
#[test]
fn kept_by_the_book() {
    let mut desk = open(250);
    assert_eq!(
        (desk.book.fee(), desk.give(0x08, [0, 0])),
        (250, paid(0, 0))
    );
    let mut raw = desk.at(4_600).book.as_raw().clone();
    assert_eq!(raw.setup.fee, 250);
    raw.setup.fee = 1_000;
    let mut desk = Desk {
        book: Book::from_raw(raw),
    };
    assert_eq!(desk.give(0x0a, [0, 0]), charged(0, 900, 100));
    assert_eq!(desk.book.fee(), 1_000);
}

/// The answer to an opening over a used book, which keeps every value where it is refused.
fn opened(id: &[u8], delay: u32, fee: u32) -> Result<u32, Refusal> {
    let mut book = open(250).book;
    let before = book.clone();
    let settings = Settings::default().with_delay(delay).with_fee(fee);
    let opened = book.reopen_with(id, &settings);
    match opened {
        Ok(()) => assert_eq!(Book::open_with(id, &settings).as_ref(), Ok(&book)),
        Err(_) => assert_eq!(book, before),
    }
    opened.map(|()| book.fee())
}

#[test]
fn openings() {
    for fee in [0, 1, 250, 999, 1_000] {
        assert_eq!(opened(&ID, 86_400, fee), Ok(fee));
        assert_eq!(opened(&ID, 3_599, fee), Err(Refusal::SettingsDelay));
        assert_eq!(opened(&ID[1..], 86_400, fee), Err(Refusal::Length));
    }
    for fee in [1_001, 10_000, 1 << 16, (1 << 16) + 250, u32::MAX] {
        assert_eq!(opened(&ID, 86_400, fee), Err(Refusal::SettingsFee));
        assert_eq!(opened(&ID[1..], 86_400, fee), Err(Refusal::Length));
        for delay in [0, 3_599, 2_592_001, u32::MAX] {
            assert_eq!(opened(&ID, delay, fee), Err(Refusal::SettingsDelay));
            assert_eq!(opened(&[1; 17], delay, fee), Err(Refusal::Length));
        }
    }
    assert_eq!(Refusal::SettingsFee.number(), 20);
}

/// The plain opening has no fee, also over a book that has one, and neither have the two settings.
#[test]
fn none_by_default() {
    let mut book = open(1_000).book;
    assert_eq!(book.reopen(&ID), Ok(()));
    assert_eq!(book.fee(), 0);
    for settings in [Settings::default(), Settings::desk()] {
        assert_eq!(Book::open_with(&ID, &settings).unwrap().fee(), 0);
    }
}
