//! Payments collected, written and read.
use super::given::{given, Call, Given};
use crate::bank::{collect, read, write, Counted, Payment};
use crate::command::length;
use crate::machine::Answer;

/// What stands in a lent list before a call.
const FORMER: Payment = payment([u64::MAX, 0xeeee_eeee, 0xee]);

const fn payment([party, channel, amount]: [u64; 3]) -> Payment {
    Payment {
        party,
        channel,
        amount,
    }
}

fn line([refusal, customer, merchant, steps, fee]: [u64; 5]) -> Answer {
    Answer {
        refusal: refusal as u8,
        customer,
        merchant,
        steps: steps as u32,
        fee,
    }
}

/// Makes a call; its answer, the list and the buffer must be as given.
fn hold(given: Given) {
    let mut list = vec![FORMER; given.room];
    let mut buffer = vec![0xee; given.room];
    let counted = match given.call {
        Call::Collect(commands, lines) => {
            let lines: Vec<Answer> = lines.into_iter().map(line).collect();
            collect(&commands, &lines, &mut list)
        }
        Call::Write(list) => {
            let list: Vec<Payment> = list.into_iter().map(payment).collect();
            write(&list, &mut buffer)
        }
        Call::Read(bytes) => read(&bytes, &mut list),
    };
    let expected = Counted {
        refusal: given.refusal,
        payments: given.payments,
    };
    assert_eq!(counted, expected);
    assert_eq!(buffer, given.buffer);
    let mut expected = vec![FORMER; given.room];
    for (place, given) in expected.iter_mut().zip(given.list) {
        *place = payment(given);
    }
    assert_eq!(list, expected);
}

#[test]
fn given_calls() {
    given().into_iter().for_each(hold);
}

/// The refusal of a writing of three payments, with room enough; then the buffer stays.
fn written(list: [Payment; 3]) -> u8 {
    let mut buffer = [0xee; 40];
    let Counted { refusal, payments } = write(&list, &mut buffer);
    assert_eq!(payments, if refusal == 0 { 3 } else { 0 });
    assert_eq!(buffer == [0xee; 40], refusal != 0);
    refusal
}

/// Numbers that the given lists do not have.
#[test]
fn any_numbers() {
    let good = [1, 5, 1_000];
    assert_eq!(written([payment(good); 3]), 0);
    for (at, numbers) in [
        (0, &[0, 3, 0x101, 1 << 32 | 1, u64::MAX][..]),
        (1, &[64, 256, (1 << 16) + 5, 1 << 32 | 5, u64::MAX]),
        (2, &[0, 1_000_000_000_000_000, 1 << 63, u64::MAX]),
    ] {
        for number in numbers {
            let mut bad = good;
            bad[at] = *number;
            for place in 0..3 {
                let mut list = [payment(good); 3];
                list[place] = payment(bad);
                assert_eq!(written(list), 17, "{bad:?}");
            }
        }
    }
}

/// Every command but 01 has its payments, with n as it stands there, and the fee is none.
#[test]
fn every_command() {
    let both = [[1, 65_535, 7], [2, 65_535, u64::MAX]].map(payment);
    for first in 1..=10 {
        let mut command = vec![0xff; length(first).unwrap()];
        command[0] = first;
        let expected = if first == 1 { &[][..] } else { &both };
        let mut list = [FORMER; 3];
        let counted = collect(&command, &[line([16, 7, u64::MAX, 0, 9]); 2], &mut list);
        assert_eq!((counted.refusal, counted.payments), (0, expected.len()));
        assert!(list.starts_with(expected));
        assert!(list[expected.len()..].iter().all(|entry| *entry == FORMER));
    }
}
