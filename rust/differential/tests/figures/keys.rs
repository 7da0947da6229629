//! Check 6: both keys carry types 6 and 4, and their 56 bytes differ.
use crate::desk::{paid, plan, refused, Desk};
use differential::plan::Plan;
use finaruvom::raw::Answer;

/// The answer of a fresh channel to an 02, which names its keys or changes nothing.
fn establish(desk: &mut Desk, plan: &Plan) -> Answer {
    let before = desk.book.clone();
    let answer = desk.file(plan);
    let channel = desk.channel();
    match answer.refusal {
        0 => assert_eq!([channel.customer.key, channel.merchant.key], plan.keys),
        _ => assert_eq!(desk.book, before),
    }
    desk.book = before;
    answer
}

#[test]
fn equal_but_for_one_bit() {
    let mut desk = Desk::new();
    let mut equal = plan(0x02, [900, 100]);
    equal.keys[0] = equal.keys[1];
    assert_eq!(establish(&mut desk, &equal), refused(6));
    for (bit, party) in (0..448).flat_map(|bit| [(bit, 0), (bit, 1)]) {
        let mut plan = equal.clone();
        plan.keys[party][bit / 8] ^= 0x80 >> (bit % 8);
        // The first eight bytes are the types.
        let expected = if bit < 64 { refused(6) } else { paid(0, 0) };
        let answer = establish(&mut desk, &plan);
        assert_eq!(answer, expected, "bit {bit} of key {party}");
    }
}
