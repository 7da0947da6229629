//! Collecting, writing and reading payments on memory between guard bytes.
use super::{kept, lend};
use crate::bridge::bank::to_list;
use crate::fence::Fenced;
use crate::pair::Outcome;
use crate::parts::bank::arbitrary::{entries, payments};
use crate::parts::strings::string;
use crate::rng::Rng;
use finaruvom::raw::{self, Counted, Line, Payment};
use std::mem::size_of;

/// Bytes of an entry and of a payment.
const ENTRY: usize = finaruvom::ENTRY_SIZE;
const PAYMENT: usize = size_of::<Payment>();

/// A list of up to five entries with any bytes.
fn list(rng: &mut Rng) -> Fenced {
    let count = rng.below(6);
    Fenced::new(rng.bytes(count * PAYMENT), 0)
}

/// Collects from strings and lines with any bytes.
pub fn collect(rng: &mut Rng, _: &mut Fenced) -> Outcome {
    let commands = (0..rng.below(6)).flat_map(|_| string(rng)).collect();
    let mut commands = lend(rng, commands);
    let count = rng.below(4);
    let mut lines = Fenced::new(rng.bytes(count * size_of::<Line>()), 0);
    let mut list = list(rng);
    // SAFETY: commands and lines are readable, and the list is writable.
    let counted = unsafe {
        raw::finaruvom_collect(
            commands.pointer(),
            commands.length(),
            lines.pointer(),
            count,
            list.pointer(),
            list.length() / PAYMENT,
        )
    };
    kept("collect", &[&list], &[&commands, &lines])?;
    stays("collect", counted, &[0, 18], (&list, PAYMENT))
}

/// Writes payments, or any numbers.
pub fn write(rng: &mut Rng, _: &mut Fenced) -> Outcome {
    let mut list = match rng.one_in(4) {
        true => list(rng),
        false => {
            let count = rng.below(6);
            Fenced::new(to_list(&payments(rng, count)), 0)
        }
    };
    let count = list.length() / PAYMENT;
    let buffer = rng.bytes_of(&[0, 10, 11, 12, 54, 55, 56, ENTRY * count]);
    let mut buffer = lend(rng, buffer);
    // SAFETY: the list is readable and the buffer writable.
    let counted =
        unsafe { raw::finaruvom_write(list.pointer(), count, buffer.pointer(), buffer.length()) };
    kept("write", &[&buffer], &[&list])?;
    stays("write", counted, &[0, 17, 18], (&buffer, ENTRY))
}

/// Reads entries, at times with a bit turned over, or any bytes.
pub fn read_payments(rng: &mut Rng, _: &mut Fenced) -> Outcome {
    let count = rng.below(6);
    let mut bytes = entries(rng, count).concat();
    match rng.below(4) {
        0 => bytes = rng.bytes_of(&[1, 10, 11, 12, 22, 54, 56]),
        1 => rng.flip_bit(&mut bytes),
        _ => {}
    }
    let mut bytes = lend(rng, bytes);
    let mut list = list(rng);
    let room = list.length() / PAYMENT;
    // SAFETY: the bytes are readable and the list writable.
    let counted = unsafe {
        raw::finaruvom_read_payments(bytes.pointer(), bytes.length(), list.pointer(), room)
    };
    kept("read_payments", &[&list], &[&bytes])?;
    stays("read_payments", counted, &[0, 18, 19], (&list, PAYMENT))
}

/// Whether the answer is one of these, and what is lent stays behind the last payment, which takes
/// so many bytes each.
fn stays(
    call: &str,
    counted: Counted,
    answers: &[u64],
    (lent, width): (&Fenced, usize),
) -> Outcome {
    let Counted { refusal, payments } = counted;
    let known = answers.contains(&refusal) && (refusal == 0 || payments == 0);
    match known && lent.stays_from(payments * width) {
        true => Ok(()),
        false => Err(format!(
            "{call}: {counted:?}, or something behind it changed"
        )),
    }
}
