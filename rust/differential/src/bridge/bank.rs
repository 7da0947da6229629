//! Payments, the lines they are collected from, and what the bank's calls answer.
use super::checked;
use finaruvom::bank::Payee;
use finaruvom::{raw, Cents, Refusal};
use oracle::bank::{Counted, Payment};

/// The bytes of the library's list with the same payments, each number at its place.
pub fn to_list(list: &[Payment]) -> Vec<u8> {
    let numbers = list
        .iter()
        .flat_map(|payment| [payment.party, payment.channel, payment.amount]);
    numbers.flat_map(u64::to_le_bytes).collect()
}

/// The bytes of the library's lines, each number at its place.
pub fn to_lines(lines: &[raw::Line]) -> Vec<u8> {
    let line = |line: &raw::Line| {
        let raw::Answer {
            customer,
            merchant,
            steps,
            refusal,
            fee,
        } = line.answer;
        let [customer, merchant, fee] =
            [customer, merchant, fee].map(|cents| cents.0.to_le_bytes());
        let [steps, refusal] = [steps, refusal].map(u32::to_le_bytes);
        [&customer[..], &merchant, &steps, &refusal, &fee].concat()
    };
    lines.iter().flat_map(line).collect()
}

/// The oracle's line with the same values; a refusal that it cannot hold is another one.
pub fn from_line(line: &raw::Line) -> oracle::Answer {
    oracle::Answer {
        refusal: u8::try_from(line.answer.refusal).unwrap_or(u8::MAX),
        customer: line.answer.customer.0,
        merchant: line.answer.merchant.0,
        steps: line.answer.steps,
        fee: line.answer.fee.0,
    }
}

/// The wrapper's payment with the same values, where it can hold the party.
pub fn to_payment(payment: &Payment) -> Option<finaruvom::bank::Payment> {
    let party = Payee::try_from(u8::try_from(payment.party).ok()?).ok()?;
    Some(finaruvom::bank::Payment {
        party,
        channel: payment.channel,
        amount: Cents(payment.amount),
    })
}

/// The library's answer with the same values.
pub fn to_counted(counted: &Counted) -> raw::Counted {
    raw::Counted {
        refusal: u64::from(counted.refusal),
        payments: counted.payments,
    }
}

/// What the wrapper makes of the answer.
pub fn to_count(counted: &Counted) -> Result<usize, Refusal> {
    checked(counted.refusal)?;
    Ok(counted.payments)
}
