//! Bank lines in packed decimal, of document 02 No. 6. The fee of its No. 7 is a payment to neither
//! party.
use crate::book::CHANNELS;
use crate::command::Command;
use crate::journal::next;
use crate::machine::Answer;

/// Bytes of an entry: the party, n in two, the amount in eight.
pub const ENTRY: usize = 11;
/// The largest amount of fifteen digits.
pub const LARGEST_AMOUNT: u64 = 999_999_999_999_999;

/// A payment of a list. Any numbers may stand there.
#[derive(Clone, Copy, Debug, PartialEq, Eq)]
pub struct Payment {
    /// 1 customer, 2 merchant.
    pub party: u64,
    /// n.
    pub channel: u64,
    /// Cents.
    pub amount: u64,
}

/// What collecting, writing and reading answer.
#[derive(Clone, Copy, Debug, PartialEq, Eq)]
pub struct Counted {
    /// The refusal's number, or 0.
    pub refusal: u8,
    /// How many payments; 0 where refused.
    pub payments: usize,
}

/// Collects a run's payments above zero, in the order of its commands, the customer's first, the
/// merchant's without the fee. A list that is too short gives 18.
pub fn collect(commands: &[u8], lines: &[Answer], list: &mut [Payment]) -> Counted {
    let mut rest = commands;
    let mut payments = Vec::new();
    for line in lines {
        let Ok(command) = next(rest, true) else {
            break;
        };
        rest = &rest[command.len()..];
        payments.extend(paid(command, line));
    }
    match store(&payments, list) {
        true => accepted(payments.len()),
        false => refused(18),
    }
}

/// The payments above zero of a command of whole length with this line; 01 has none.
fn paid(command: &[u8], line: &Answer) -> Vec<Payment> {
    let Some(n) = Command::parse(command).unwrap().channel else {
        return Vec::new();
    };
    let sides = [(1, line.customer), (2, line.merchant)].map(|(party, amount)| Payment {
        party,
        channel: u64::from(n),
        amount,
    });
    sides.into_iter().filter(|side| side.amount > 0).collect()
}

/// Writes a list. A payment that no entry can hold gives 17, then a buffer that is too short 18.
pub fn write(list: &[Payment], buffer: &mut [u8]) -> Counted {
    let Some(entries) = list.iter().map(entry).collect::<Option<Vec<_>>>() else {
        return refused(17);
    };
    match store(entries.as_flattened(), buffer) {
        true => accepted(list.len()),
        false => refused(18),
    }
}

/// Reads a list. A length that is no multiple of 11 or a list that is too short gives 18, then an
/// entry that is not as one is written 19.
pub fn read(bytes: &[u8], list: &mut [Payment]) -> Counted {
    let (entries, rest) = bytes.as_chunks();
    if !rest.is_empty() || entries.len() > list.len() {
        return refused(18);
    }
    let Some(payments) = entries.iter().map(payment).collect::<Option<Vec<_>>>() else {
        return refused(19);
    };
    store(&payments, list);
    accepted(payments.len())
}

fn accepted(payments: usize) -> Counted {
    Counted {
        refusal: 0,
        payments,
    }
}

fn refused(refusal: u8) -> Counted {
    Counted {
        refusal,
        payments: 0,
    }
}

/// Copies to the head of what is lent, and says whether it was long enough.
fn store<T: Copy>(from: &[T], lent: &mut [T]) -> bool {
    let head = lent.get_mut(..from.len());
    head.map(|head| head.copy_from_slice(from)).is_some()
}

/// Whether an entry can hold these numbers.
fn fits(payment: &Payment) -> bool {
    matches!(payment.party, 1 | 2)
        && payment.channel < CHANNELS as u64
        && (1..=LARGEST_AMOUNT).contains(&payment.amount)
}

/// The entry of a payment, if there is one.
fn entry(payment: &Payment) -> Option<[u8; ENTRY]> {
    if !fits(payment) {
        return None;
    }
    let mut entry = [0; ENTRY];
    entry[0] = payment.party as u8;
    entry[1..3].copy_from_slice(&(payment.channel as u16).to_be_bytes());
    entry[3..].copy_from_slice(&packed(payment.amount));
    Some(entry)
}

/// The payment of an entry, if it is one.
fn payment(entry: &[u8; ENTRY]) -> Option<Payment> {
    let [party, high, low, packed @ ..] = entry;
    let payment = Payment {
        party: u64::from(*party),
        channel: u64::from(u16::from_be_bytes([*high, *low])),
        amount: unpacked(packed)?,
    };
    fits(&payment).then_some(payment)
}

/// Fifteen digits in half bytes, the first in the high half of the first byte, and C behind them.
fn packed(amount: u64) -> [u8; 8] {
    let mut halves = [0xc; 16];
    let mut rest = amount;
    for half in halves[..15].iter_mut().rev() {
        *half = (rest % 10) as u8;
        rest /= 10;
    }
    std::array::from_fn(|at| halves[2 * at] << 4 | halves[2 * at + 1])
}

/// The amount of packed decimal, if fifteen half bytes are digits and the last one is C.
fn unpacked(bytes: &[u8; 8]) -> Option<u64> {
    let halves = bytes.map(|byte| [byte >> 4, byte & 0xf]);
    let (last, digits) = halves.as_flattened().split_last()?;
    let decimal = *last == 0xc && digits.iter().all(|digit| *digit < 10);
    let amount = digits
        .iter()
        .fold(0, |sum, digit| 10 * sum + u64::from(*digit));
    decimal.then_some(amount)
}
