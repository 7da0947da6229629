//! Random bytes into every exported function, on memory between guard bytes.

mod bank;
mod journal;
mod opening;
mod signer;

use super::strings::string;
use super::World;
use crate::arbitrary;
use crate::fence::Fenced;
use crate::pair::{hex, same, Outcome};
use crate::rng::Rng;
use finaruvom::raw;
use std::mem::size_of;

type Call = fn(&mut Rng, &mut Fenced) -> Outcome;

const CALLS: &[Call] = &[
    hash,
    check,
    opening::open,
    opening::open_with,
    apply,
    journal::read,
    journal::run,
    signer::make_key,
    signer::sign,
    bank::collect,
    bank::write,
    bank::read_payments,
];

/// Calls on one book.
pub fn case(rng: &mut Rng, world: &mut World) -> Outcome {
    let mut book = book(rng, world);
    for _ in 0..100 {
        let call = rng.pick(CALLS);
        call(rng, &mut book)?;
        world.tally.compared("guarded calls");
    }
    Ok(())
}

/// A sound book, or random bytes.
fn book(rng: &mut Rng, world: &World) -> Fenced {
    let mut fenced = Fenced::new(rng.bytes(size_of::<raw::Book>()), 0);
    if !rng.one_in(8) {
        let sound = arbitrary::sound_book(rng, &world.wallet);
        // SAFETY: the buffer has a book's size and alignment.
        unsafe { fenced.pointer::<raw::Book>().write(sound) };
    }
    fenced
}

/// Bytes to lend that start anywhere.
fn lend(rng: &mut Rng, bytes: Vec<u8>) -> Fenced {
    Fenced::new(bytes, rng.below(8))
}

/// Whether the call kept to what it was lent.
fn kept(call: &str, written: &[&Fenced], read: &[&Fenced]) -> Outcome {
    let kept = written.iter().all(|buffer| buffer.intact())
        && read.iter().all(|buffer| buffer.untouched());
    match kept {
        true => Ok(()),
        false => {
            let read: Vec<String> = read.iter().map(|buffer| hex(buffer.bytes())).collect();
            Err(format!(
                "{call} wrote where it may not; lent: {}",
                read.join(" ")
            ))
        }
    }
}

/// Whether the call answered 2 for a wrong length, and 0 for a right one.
fn refused_with_2(call: &str, refusal: u32, wrong: bool) -> Outcome {
    same(call, &refusal, &(2 * u32::from(wrong)))
}

fn hash(rng: &mut Rng, _: &mut Fenced) -> Outcome {
    let bytes = rng.bytes_of(&[0, 1, 55, 56, 64, 65, 1_000, 65_536, 65_537]);
    let mut bytes = lend(rng, bytes);
    let mut digest = lend(rng, vec![0; 32]);
    // SAFETY: the bytes are readable and the digest is writable.
    let refusal = unsafe { raw::finaruvom_hash(bytes.pointer(), bytes.length(), digest.pointer()) };
    kept("hash", &[&digest], &[&bytes])?;
    refused_with_2("hash", refusal, bytes.length() > 65_536)
}

fn check(rng: &mut Rng, _: &mut Fenced) -> Outcome {
    let mut key = rng.bytes_of(&[0, 55, 56, 56, 56, 57]);
    let mut signature = rng.bytes_of(&[0, 39, 1_451, 1_452, 1_452, 1_452, 1_453]);
    if let (Some(key), Some(signature)) = (key.get_mut(..8), signature.get_mut(..8)) {
        key.copy_from_slice(&oracle::TYPES);
        signature.copy_from_slice(&[0, 0, 1, 2, 0, 0, 0, 4]);
    }
    if let Some(kind) = signature.get_mut(1128..1132) {
        kind.copy_from_slice(&oracle::TYPES[..4]);
    }
    let message = rng.bytes_of(&[0, 1, 19, 67, 1_024, 1_025]);
    let [mut key, mut signature, mut message] =
        [key, signature, message].map(|bytes| lend(rng, bytes));
    let former = rng.below(2) as u8;
    let mut verdict = lend(rng, vec![former]);
    let [mut steps, mut leaf] = [(); 2].map(|()| Fenced::new(vec![0xff; 4], 4 * rng.below(2)));
    // SAFETY: the three buffers are readable, and verdict, steps and leaf are writable.
    let refusal = unsafe {
        raw::finaruvom_check(
            key.pointer(),
            key.length(),
            message.pointer(),
            message.length(),
            signature.pointer(),
            signature.length(),
            verdict.pointer(),
            steps.pointer(),
            leaf.pointer(),
        )
    };
    let written = [&verdict, &steps, &leaf];
    kept("check", &written, &[&key, &message, &signature])?;
    refused_with_2("check", refusal, message.length() > 1_024)?;
    match (verdict.bytes(), leaf.bytes()) {
        ([0], [0, 0, 0, 0]) | ([1], [_, 0..=3, 0, 0]) => Ok(()),
        other => Err(format!("verdict and leaf: {other:?}")),
    }
}

fn apply(rng: &mut Rng, book: &mut Fenced) -> Outcome {
    let command = string(rng);
    let mut command = lend(rng, command);
    // SAFETY: the book is writable and the command readable.
    let answer =
        unsafe { raw::finaruvom_apply(book.pointer(), command.pointer(), command.length()) };
    kept("apply", &[book], &[&command])?;
    let paid = [answer.customer, answer.merchant, answer.fee].map(|cents| cents.0);
    match (answer.refusal, paid) {
        (0, _) | (1..=12 | 16 | 99, [0, 0, 0]) => Ok(()),
        other => Err(format!("a refusal and payments of {other:?}")),
    }
}
