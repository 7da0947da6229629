//! The calls from outside, by the header's functions.
use calls::{given, Call, Given};
use finaruvom::raw::{
    finaruvom_collect, finaruvom_read_payments, finaruvom_write, Answer, Counted, Line, Payment,
};
use finaruvom::Cents;

#[path = "../../../oracle/src/vectors/given.rs"]
mod calls;

/// What stands in a lent list before a call.
const FORMER: [u64; 3] = [u64::MAX, 0xeeee_eeee, 0xee];

fn payment([party, channel, amount]: [u64; 3]) -> Payment {
    Payment {
        party,
        channel,
        amount: Cents(amount),
    }
}

fn line([refusal, customer, merchant, steps, fee]: [u64; 5]) -> Line {
    let answer = Answer {
        customer: Cents(customer),
        merchant: Cents(merchant),
        steps: steps.try_into().unwrap(),
        refusal: refusal.try_into().unwrap(),
        fee: Cents(fee),
    };
    Line { answer }
}

fn collect(commands: &[u8], lines: &[Line], list: &mut [Payment]) -> Counted {
    // SAFETY: commands and lines are readable, and the list is lent exclusively.
    unsafe {
        finaruvom_collect(
            commands.as_ptr(),
            commands.len(),
            lines.as_ptr(),
            lines.len(),
            list.as_mut_ptr(),
            list.len(),
        )
    }
}

fn write(list: &[Payment], buffer: &mut [u8]) -> Counted {
    // SAFETY: the list is readable, and the buffer is lent exclusively.
    unsafe { finaruvom_write(list.as_ptr(), list.len(), buffer.as_mut_ptr(), buffer.len()) }
}

fn read(bytes: &[u8], list: &mut [Payment]) -> Counted {
    // SAFETY: the bytes are readable, and the list is lent exclusively.
    unsafe { finaruvom_read_payments(bytes.as_ptr(), bytes.len(), list.as_mut_ptr(), list.len()) }
}

/// Makes a call; its answer, the list and the buffer must be as given.
fn hold(given: Given) {
    let former = vec![payment(FORMER); given.room];
    let (mut list, mut buffer) = (former.clone(), vec![0xee; given.room]);
    let counted = match given.call {
        Call::Collect(commands, lines) => {
            let lines: Vec<Line> = lines.into_iter().map(line).collect();
            collect(&commands, &lines, &mut list)
        }
        Call::Write(list) => {
            let list: Vec<Payment> = list.into_iter().map(payment).collect();
            write(&list, &mut buffer)
        }
        Call::Read(bytes) => read(&bytes, &mut list),
    };
    let expected = Counted {
        refusal: u64::from(given.refusal),
        payments: given.payments,
    };
    assert_eq!(counted, expected);
    assert_eq!(buffer, given.buffer);
    let head: Vec<Payment> = given.list.into_iter().map(payment).collect();
    assert_eq!(list, [&head, &former[head.len()..]].concat());
}

#[test]
fn given_calls() {
    given().into_iter().for_each(hold);
}

/// Parties that only the header's list can hold.
#[test]
fn other_parties() {
    for party in [0, 3, 0x101, 0x102, (1 << 32) + 1, u64::MAX] {
        let list = [[1, 5, 9], [party, 5, 9]].map(payment);
        for room in [0, 21, 22, 23] {
            let mut buffer = vec![0xee; room];
            let counted = write(&list, &mut buffer);
            assert_eq!((counted.refusal, counted.payments), (17, 0), "{party}");
            assert_eq!(buffer, vec![0xee; room]);
        }
    }
}
