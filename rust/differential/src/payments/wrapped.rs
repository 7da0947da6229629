//! What the wrapper makes of the same calls.
use crate::bridge::bank::{to_count, to_payment};
use crate::pair::{same, Outcome};
use finaruvom::bank::{self, Payee};
use finaruvom::{Cents, Line, Refusal};
use oracle::bank::{Counted, Payment};

/// What stands in a list before a call.
const FORMER: bank::Payment = bank::Payment {
    party: Payee::Merchant,
    channel: 0xa5a5,
    amount: Cents(0x5a5a),
};

/// The oracle's answer, and the list that it left.
type Expected<'a> = (&'a Counted, &'a [Payment]);

/// Whether a run's lines are collected equally.
pub fn collect(commands: &[u8], lines: &[Line], expected: Expected) -> Outcome {
    let mut list = vec![FORMER; expected.1.len()];
    let counted = bank::collect(commands, lines, &mut list);
    same_list(counted, &list, expected)
}

/// Whether a list is written equally to this buffer, where the wrapper can hold it.
pub fn write(list: &[Payment], mut buffer: Vec<u8>, expected: (&Counted, &[u8])) -> Outcome {
    let Some(list) = list.iter().map(to_payment).collect::<Option<Vec<_>>>() else {
        return Ok(());
    };
    let counted = bank::write(&list, &mut buffer);
    same("wrapped answer", &counted, &to_count(expected.0))?;
    same("wrapped buffer", &&*buffer, &expected.1)
}

/// Whether bytes are read equally.
pub fn read(bytes: &[u8], expected: Expected) -> Outcome {
    let mut list = vec![FORMER; expected.1.len()];
    let counted = bank::read(bytes, &mut list);
    same_list(counted, &list, expected)
}

/// Whether answer and payments are the oracle's, and the entries behind them as they were.
fn same_list(
    counted: Result<usize, Refusal>,
    list: &[bank::Payment],
    (oracle, expected): Expected,
) -> Outcome {
    same("wrapped answer", &counted, &to_count(oracle))?;
    let (head, behind) = list.split_at(oracle.payments);
    let head: Vec<_> = head.iter().copied().map(Some).collect();
    let expected: Vec<_> = expected[..head.len()].iter().map(to_payment).collect();
    same("wrapped payments", &head, &expected)?;
    same("entries behind", &behind, &&*vec![FORMER; behind.len()])
}
