//! Key making and signing on memory between guard bytes.
use super::{kept, lend, refused_with_2};
use crate::fence::Fenced;
use crate::pair::{same, Outcome};
use crate::rng::Rng;
use finaruvom::raw;
use finaruvom::{LEAVES, SIGNER_SIZE};

/// A signer with any values but for its next leaf.
fn signer(rng: &mut Rng, next: u32) -> Fenced {
    let mut bytes = rng.bytes(SIGNER_SIZE);
    bytes[88..92].copy_from_slice(&next.to_ne_bytes());
    Fenced::new(bytes, 4 * rng.below(2))
}

/// Makes no key: an accepted making takes seconds.
pub fn make_key(rng: &mut Rng, _: &mut Fenced) -> Outcome {
    let mut signer = signer(rng, 0);
    let seed = rng.bytes_of(&[0, 1, 31, 32, 33]);
    let id = match seed.len() {
        32 => rng.bytes_of(&[0, 15, 17]),
        _ => rng.bytes_of(&[0, 15, 16, 17]),
    };
    let [mut seed, mut id] = [seed, id].map(|bytes| lend(rng, bytes));
    // SAFETY: the signer is writable, and seed and id are readable.
    let refusal = unsafe {
        raw::finaruvom_make_key(
            signer.pointer(),
            seed.pointer(),
            seed.length(),
            id.pointer(),
            id.length(),
        )
    };
    kept("make_key", &[&signer], &[&seed, &id])?;
    refused_with_2("make_key", refusal, true)
}

/// Signs, where the lengths fit and a leaf is left.
pub fn sign(rng: &mut Rng, _: &mut Fenced) -> Outcome {
    let next = rng.pick(&[0, 1, LEAVES - 1, LEAVES, LEAVES + 1, u32::MAX]);
    let mut signer = signer(rng, next);
    let nonce = rng.bytes_of(&[0, 31, 32, 32, 32, 33]);
    let message = rng.bytes_of(&[0, 1, 67, 1_024, 1_025]);
    let [mut nonce, mut message] = [nonce, message].map(|bytes| lend(rng, bytes));
    // SAFETY: the signer is writable, and nonce and message are readable.
    let signature = unsafe {
        raw::finaruvom_sign(
            signer.pointer(),
            nonce.pointer(),
            nonce.length(),
            message.pointer(),
            message.length(),
        )
    };
    kept("sign", &[&signer], &[&nonce, &message])?;
    let expected = match (nonce.length(), message.length()) {
        (32, 0..=1_024) if next < LEAVES => 0,
        (32, 0..=1_024) => 15,
        _ => 2,
    };
    same("sign", &signature.refusal, &expected)?;
    match expected == 0 || signer.untouched() {
        true => Ok(()),
        false => Err("sign: refused, and the signer changed".to_string()),
    }
}
