//! The paper's figures of writing.
use crate::payment;
use finaruvom::bank::{read, write, Payee, Payment};
use finaruvom::{Refusal, LARGEST_AMOUNT};

/// The entry of a payment.
fn entry(payment: Payment) -> [u8; 11] {
    let mut buffer = [0xee; 13];
    assert_eq!(write(&[payment], &mut buffer), Ok(1));
    assert_eq!(buffer[11..], [0xee; 2]);
    *buffer.first_chunk().unwrap()
}

/// Asserts that a writing into so many bytes is refused, and that the buffer keeps them.
fn refused(list: &[Payment], room: usize, refusal: Refusal) {
    let mut buffer = vec![0xee; room];
    assert_eq!(write(list, &mut buffer), Err(refusal), "{list:?} {room}");
    assert_eq!(buffer, vec![0xee; room]);
}

#[test]
fn amounts() {
    let packed = |cents| {
        let entry = entry(payment(Payee::Customer, 0, cents));
        u64::from_be_bytes(*entry.last_chunk().unwrap())
    };
    assert_eq!(packed(1), 0x0000_0000_0000_001c);
    assert_eq!(packed(12_345), 0x0000_0000_0012_345c);
    assert_eq!(packed(123_456_789_012_345), 0x1234_5678_9012_345c);
    assert_eq!(packed(100_000_000_000_000), 0x1000_0000_0000_000c);
    assert_eq!(packed(LARGEST_AMOUNT.0), 0x9999_9999_9999_999c);
}

#[test]
fn parties_and_channels() {
    let head = |party, channel| {
        let [party, high, low, ..] = entry(payment(party, channel, 1));
        [party, high, low]
    };
    assert_eq!(head(Payee::Customer, 3), [1, 0, 3]);
    assert_eq!(head(Payee::Customer, 0), [1, 0, 0]);
    assert_eq!(head(Payee::Merchant, 63), [2, 0, 63]);
}

#[test]
fn payments_that_no_entry_holds() {
    let good = payment(Payee::Merchant, 63, 1);
    let channels = [64, 65, 255, 256, 65_535, (1 << 16) + 5, 1 << 32, u64::MAX];
    let amounts = [0, 1_000_000_000_000_000, 1 << 63, u64::MAX];
    let bad = channels.map(|n| payment(Payee::Customer, n, 1)).into_iter();
    let bad = bad.chain(amounts.map(|cents| payment(Payee::Customer, 5, cents)));
    for bad in bad.chain([Payment::default()]) {
        for list in [[bad, good, good], [good, bad, good], [good, good, bad]] {
            // 17 comes before 18.
            for room in [0, 32, 33, 40] {
                refused(&list, room, Refusal::Payment);
            }
        }
    }
}

#[test]
fn buffers() {
    let list = [payment(Payee::Merchant, 63, 9); 3];
    for room in [0, 1, 11, 22, 31, 32] {
        refused(&list, room, Refusal::Room);
    }
    for room in [33, 34, 43, 44, 66] {
        let mut buffer = vec![0xee; room];
        assert_eq!(write(&list, &mut buffer), Ok(3));
        let entries = [2, 0, 63, 0, 0, 0, 0, 0, 0, 0, 0x9c].repeat(3);
        assert_eq!(buffer[..33], entries);
        assert_eq!(buffer[33..], vec![0xee; room - 33]);
    }
}

#[test]
fn nothing() {
    assert_eq!(write(&[], &mut []), Ok(0));
    let mut buffer = [0xee; 11];
    assert_eq!(write(&[], &mut buffer), Ok(0));
    assert_eq!(buffer, [0xee; 11]);
}

#[test]
fn what_was_written_is_read() {
    let amounts = (0..15).map(|zeros| 10u64.pow(zeros));
    let amounts = amounts.flat_map(|power| [power, 10 * power - 1, 9 * power]);
    let payments = amounts.zip((0..64).cycle());
    let list: Vec<Payment> = payments
        .flat_map(|(cents, n)| {
            [Payee::Merchant, Payee::Customer].map(|party| payment(party, n, cents))
        })
        .collect();
    let list = list.repeat(4);
    assert_eq!(list.len(), 360);
    let mut buffer = vec![0; 11 * list.len()];
    assert_eq!(write(&list, &mut buffer), Ok(list.len()));
    let mut back = vec![Payment::default(); list.len()];
    assert_eq!(read(&buffer, &mut back), Ok(list.len()));
    assert_eq!(back, list);
}
