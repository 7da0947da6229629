//! Document 02 No. 2: accounts that only the merchant funds. The customer deposits nothing, the
//! merchant 100.
use crate::case::NOBODY;
use crate::desk::{paid, plan, refused, wallet, Desk};
use finaruvom::raw::Answer;
use finaruvom::{Book, Cents, Seconds, Status};
use oracle::SIGNATURE;

/// The largest total.
const LARGEST: u64 = (1 << 63) - 1;

/// The account open.
fn open() -> Desk {
    let mut desk = Desk::credit();
    assert_eq!(desk.give(0x04, [100, 0]), paid(0, 0));
    desk
}

/// Asserts status, total and held sum of the channel.
fn reads(desk: &Desk, status: Status, total: u64, held: u64) {
    let reading = desk.book.read(0).unwrap();
    let expected = (status, Cents(total), Cents(held));
    assert_eq!((reading.status, reading.total, reading.held), expected);
}

/// The answer to an 02 with these deposits, which keeps every value where it is refused.
fn establish(deposits: [u64; 2]) -> (Desk, Answer) {
    let mut desk = Desk::new();
    let before = desk.book.clone();
    let answer = desk.give(0x02, deposits);
    assert_eq!(desk.book == before, answer.refusal != 0, "{deposits:?}");
    (desk, answer)
}

#[test]
fn established() {
    for merchant in [1, 100, 1 << 62, LARGEST] {
        let (desk, answer) = establish([0, merchant]);
        assert_eq!(answer, paid(0, 0));
        reads(&desk, Status::AwaitingMerchant, merchant, 0);
    }
    for deposits in [[1, 0], [900, 0], [LARGEST, 0], [1, 1], [1, LARGEST - 1]] {
        let (desk, answer) = establish(deposits);
        assert_eq!(answer, paid(0, 0));
        reads(&desk, Status::AwaitingCustomer, deposits.iter().sum(), 0);
    }
}

#[test]
fn deposits_out_of_range() {
    let over = [[0, 1 << 63], [0, u64::MAX], [LARGEST, 1], [1, LARGEST]];
    // Modulo 2^64 these are 0 or fit.
    let wrapping = [
        [1 << 63, 1 << 63],
        [u64::MAX, 1],
        [u64::MAX, 2],
        [2, u64::MAX],
    ];
    for deposits in [[[0, 0]].as_slice(), &over, &wrapping].concat() {
        assert_eq!(establish(deposits).1, refused(8), "{deposits:?}");
    }
}

#[test]
fn funding() {
    let mut desk = Desk::credit();
    for cents in [0, 100, 900] {
        assert_eq!(desk.give(0x03, [cents, 0]), refused(5));
    }
    for cents in [0, 99, 101, 900] {
        assert_eq!(desk.give(0x04, [cents, 0]), refused(8));
    }
    reads(&desk, Status::AwaitingMerchant, 100, 0);
    assert_eq!(desk.give(0x04, [100, 0]), paid(0, 0));
    reads(&desk, Status::Open, 100, 100);
    assert_eq!(desk.give(0x04, [100, 0]), refused(5));
    assert_eq!(desk.give(0x05, [0, 0]), refused(5));
}

/// What stays as it was: the customer's deposit opens an account in which the merchant has none.
#[test]
fn customer_alone() {
    let (mut desk, _) = establish([900, 0]);
    assert_eq!(desk.give(0x04, [0, 0]), refused(5));
    assert_eq!(desk.give(0x03, [0, 0]), refused(8));
    assert_eq!(desk.give(0x03, [900, 0]), paid(0, 0));
    reads(&desk, Status::Open, 900, 900);
}

#[test]
fn reclaimed() {
    let mut desk = Desk::credit();
    for signer in [1, 2, NOBODY] {
        let mut reclaim = plan(0x05, [0, 0]);
        reclaim.signers[1].party = signer;
        let command = reclaim.write(|hand, message| match hand.party {
            NOBODY => [0; SIGNATURE],
            _ => wallet().sign(hand, message),
        });
        let answer = *desk.book.apply(&command).as_raw();
        assert_eq!(Answer { steps: 0, ..answer }, refused(12));
    }
    assert_eq!(desk.give(0x05, [0, 0]), paid(0, 0));
    reads(&desk, Status::Closed, 100, 0);
    assert_eq!(desk.give(0x04, [100, 0]), refused(5));
}

/// Commands of a life from the open account on, each with its clock, numbers and payments.
type Life = &'static [(u64, u8, [u64; 2], [u64; 2])];

/// A life to each end but the reclaim.
const LIVES: [Life; 6] = [
    &[(1_000, 0x06, [40, 60], [40, 60])],
    &[
        (1_000, 0x07, [70, 30], [0, 30]),
        (4_599, 0x09, [0, 0], [0, 70]),
    ],
    &[
        (1_000, 0x07, [70, 30], [0, 30]),
        (4_600, 0x0a, [0, 0], [70, 0]),
    ],
    &[
        (1_000, 0x08, [0, 0], [0, 0]),
        (4_600, 0x0a, [0, 0], [0, 100]),
    ],
    &[
        (1_000, 0x08, [0, 0], [0, 0]),
        (4_599, 0x07, [70, 30], [0, 30]),
        (8_198, 0x09, [0, 0], [0, 70]),
    ],
    &[
        (1_000, 0x08, [0, 0], [0, 0]),
        (4_599, 0x07, [70, 30], [0, 30]),
        (8_199, 0x0a, [0, 0], [70, 0]),
    ],
];

/// After each command the account holds what is left of the merchant's 100.
#[test]
fn lives() {
    for life in LIVES {
        let mut desk = open();
        let mut left = 100;
        for &(time, opcode, numbers, [customer, merchant]) in life {
            desk = desk.at(time);
            assert_eq!(desk.give(opcode, numbers), paid(customer, merchant));
            left -= customer + merchant;
            assert_eq!(desk.book.read(0).unwrap().held, Cents(left));
        }
        reads(&desk, Status::Closed, 100, 0);
    }
}

/// What the ends of a life are held to besides.
#[test]
fn closings_refused() {
    let mut desk = open();
    assert_eq!(desk.give(0x06, [40, 61]), refused(8));
    assert_eq!(desk.give(0x07, [100, 1]), refused(8));
    assert_eq!(desk.give(0x07, [70, 30]), paid(0, 30));
    assert_eq!(desk.channel().deadline, Seconds(4_600));
    assert_eq!(desk.give(0x0a, [0, 0]), refused(9));
    assert_eq!(desk.at(4_600).give(0x09, [0, 0]), refused(9));
}

/// A desk with a lent book whose channel has this status and these deposits.
fn lent(status: u32, [customer, merchant]: [u64; 2]) -> Desk {
    let mut raw = Desk::credit().book.as_raw().clone();
    let channel = &mut raw.channels[0];
    channel.status = status;
    channel.customer.deposit = Cents(customer);
    channel.merchant.deposit = Cents(merchant);
    let book = Book::from_raw(raw);
    assert_eq!(Book::from_bytes(book.as_bytes()).as_ref(), Ok(&book));
    Desk { book }
}

/// No command leads to these books, but they are sound, and the rules hold for them too.
#[test]
fn lent_books() {
    let mut desk = lent(1, [0, 100]);
    reads(&desk, Status::AwaitingCustomer, 100, 0);
    assert_eq!(desk.give(0x04, [100, 0]), refused(5));
    assert_eq!(desk.give(0x03, [1, 0]), refused(8));
    assert_eq!(desk.give(0x03, [0, 0]), paid(0, 0));
    assert_eq!(desk.book, Desk::credit().book);

    let mut desk = lent(1, [0, 0]);
    assert_eq!(desk.give(0x03, [0, 0]), paid(0, 0));
    reads(&desk, Status::Open, 0, 0);
    assert_eq!(desk.give(0x06, [0, 0]), paid(0, 0));
    reads(&desk, Status::Closed, 0, 0);

    let mut desk = lent(2, [0, 0]);
    assert_eq!(desk.give(0x04, [0, 0]), paid(0, 0));
    reads(&desk, Status::Open, 0, 0);
}
