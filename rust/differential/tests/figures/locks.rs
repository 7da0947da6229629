//! Check 10: the secret of a dispute hashes to the kept lock, in all of its bits.
use crate::desk::{paid, plan, refused, secret, Desk};
use finaruvom::raw::Answer;
use finaruvom::Cents;

/// The answer to a 09 with the secret; a refused one changes nothing.
fn dispute(desk: &mut Desk, secret: [u8; 32]) -> Answer {
    let before = desk.book.clone();
    let mut plan = plan(0x09, [0, 0]);
    plan.string = secret;
    let answer = desk.file(&plan);
    assert_eq!(desk.book == before, answer.refusal != 0);
    answer
}

/// The bytes with one bit turned over.
fn turned(bytes: [u8; 32], bit: usize) -> [u8; 32] {
    let mut bytes = bytes;
    bytes[bit / 8] ^= 0x80 >> (bit % 8);
    bytes
}

#[test]
fn lock_one_bit_off() {
    let mut desk = Desk::open();
    let open = desk.book.clone();
    let plan = plan(0x07, [700, 300]);
    for bit in 0..256 {
        desk.book = open.clone();
        let mut off = plan.clone();
        off.string = turned(plan.string, bit);
        let closed = desk.file(&off);
        assert_eq!((closed.refusal, closed.merchant), (0, Cents(300)));
        assert_eq!(dispute(&mut desk, secret()), refused(10), "bit {bit}");
    }
}

#[test]
fn secret_one_bit_off() {
    let mut desk = Desk::closing();
    for bit in 0..256 {
        let answer = dispute(&mut desk, turned(secret(), bit));
        assert_eq!(answer, refused(10), "bit {bit}");
    }
    let answer = dispute(&mut desk, secret());
    assert_eq!(Answer { steps: 0, ..answer }, paid(0, 700));
}
