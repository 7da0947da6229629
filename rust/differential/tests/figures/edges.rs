//! The figures at the edges.
use crate::desk::{paid, plan, refused, Desk};
use finaruvom::{Cents, Seconds};

#[test]
fn establishing() {
    let mut desk = Desk::new();
    let mut plan = plan(0x02, [900, 100]);
    plan.delay = 3_599;
    assert_eq!(desk.file(&plan), refused(7));
    assert_eq!(desk.give(0x01, [1_000, 0]), paid(0, 0));
    plan.delay = 0;
    assert_eq!(desk.file(&plan), paid(0, 0));
    assert_eq!(desk.channel().delay, 86_400);
}

#[test]
fn funding() {
    let mut desk = Desk::established();
    assert_eq!(desk.give(0x03, [899, 0]), refused(8));
    assert_eq!(desk.give(0x03, [900, 0]), paid(0, 0));
    assert_eq!(desk.channel().status, 2);
    assert_eq!(desk.give(0x04, [100, 0]), paid(0, 0));
    assert_eq!(desk.channel().status, 3);
    assert_eq!(Desk::funded().give(0x05, [0, 0]), paid(900, 0));
}

#[test]
fn mutual_close() {
    let mut desk = Desk::open();
    assert_eq!(desk.give(0x06, [400, 601]), refused(8));
    assert_eq!(desk.give(0x06, [u64::MAX, 1_001]), refused(8));
    assert_eq!(desk.give(0x06, [400, 600]), paid(400, 600));
    assert_eq!(desk.channel().status, 6);
}

#[test]
fn customer_closes() {
    let channel = *Desk::closing().channel();
    assert_eq!(channel.status, 5);
    assert_eq!(channel.kept, Cents(700));
    assert_eq!(channel.deadline, Seconds(4_600));
    assert_eq!(Desk::closing().at(4_599).give(0x09, [0, 0]), paid(0, 700));
    assert_eq!(Desk::closing().at(4_600).give(0x09, [0, 0]), refused(9));
    assert_eq!(Desk::closing().at(4_599).give(0x0a, [0, 0]), refused(9));
    assert_eq!(Desk::closing().at(4_600).give(0x0a, [0, 0]), paid(700, 0));
}

#[test]
fn merchant_closes() {
    let mut desk = Desk::merchant_closing().at(4_599);
    assert_eq!(desk.give(0x07, [700, 300]), paid(0, 300));
    assert_eq!(desk.channel().deadline, Seconds(8_199));
    let mut desk = Desk::merchant_closing().at(4_600);
    assert_eq!(desk.give(0x07, [700, 300]), refused(9));
    assert_eq!(desk.give(0x0a, [0, 0]), paid(0, 1_000));
}
