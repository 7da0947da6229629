//! Signature checks of every length, with damage of every kind.
use super::World;
use crate::pair::{hex, same, Outcome};
use crate::rng::Rng;
use crate::tally::Tally;
use crate::wallet::Wallet;
use finaruvom::raw::finaruvom_check;

/// A key, a message and a signature.
#[derive(Clone)]
pub struct Signed {
    pub key: Vec<u8>,
    pub message: Vec<u8>,
    pub signature: Vec<u8>,
}

/// Good signatures and what becomes of them.
pub fn case(rng: &mut Rng, world: &mut World) -> Outcome {
    let any = rng.below(1_024);
    for length in [any, rng.pick(&[0, 1, 1_023, 1_024, 1_025, 1_026])] {
        let good = signed(rng, &mut world.wallet, length);
        compare(&good, &mut world.tally)?;
        lengths(&good, rng, &mut world.tally)?;
        for _ in 0..4 {
            compare(&damaged(rng, &good), &mut world.tally)?;
        }
    }
    Ok(())
}

fn signed(rng: &mut Rng, wallet: &mut Wallet, length: usize) -> Signed {
    let party = rng.below(Wallet::PARTIES);
    let message = rng.bytes(length);
    Signed {
        key: wallet.key(party).to_vec(),
        signature: wallet.sign(party, &message).to_vec(),
        message,
    }
}

/// Keys of 0 to 60 bytes, signatures shorter and longer than they should be, and messages of all
/// lengths with one of these.
fn lengths(good: &Signed, rng: &mut Rng, tally: &mut Tally) -> Outcome {
    for length in (0..=60).filter(|length| *length != 56) {
        let mut bad = good.clone();
        bad.key.resize(length, 0);
        compare(&bad, tally)?;
    }
    let mut bad = good.clone();
    for length in [2_904, 1_484, 1_454, 1_453, 1_451, rng.below(1_452), 4, 1, 0] {
        bad.signature.resize(length, 0);
        compare(&bad, tally)?;
    }
    bad.signature.resize(rng.pick(&[0, 1_451, 1_453]), 0);
    for length in 0..=1_026 {
        bad.message.resize(length, 0);
        compare(&bad, tally)?;
    }
    Ok(())
}

/// A turned bit anywhere or in the root's last byte, another leaf or another type.
fn damaged(rng: &mut Rng, good: &Signed) -> Signed {
    let mut bad = good.clone();
    let leaf = rng.pick(&[0, 1, 2, 511, 1_022, 1_023, 1_024, 1_025, 1 << 24, u32::MAX]);
    let kind = rng.pick(&[3, 4, 5, 6, 7, 0x0400, 0x0600_0000]);
    match rng.below(10) {
        0 => rng.flip_bit(&mut bad.key),
        1 => rng.flip_bit(&mut bad.key[55..]),
        2 => rng.flip_bit(&mut bad.message),
        3..=4 => rng.flip_bit(&mut bad.signature),
        5 => bad.signature[..4].copy_from_slice(&leaf.to_be_bytes()),
        6 => bad.signature[4..8].copy_from_slice(&u32::to_be_bytes(kind)),
        7 => bad.signature[1128..1132].copy_from_slice(&u32::to_be_bytes(kind)),
        8 => bad.key[..4].copy_from_slice(&u32::to_be_bytes(kind)),
        _ => bad.key[4..8].copy_from_slice(&u32::to_be_bytes(kind)),
    }
    bad
}

/// Checks a signature in both, and gives the verdict.
pub fn compare(signed: &Signed, tally: &mut Tally) -> Result<bool, String> {
    let Signed {
        key,
        message,
        signature,
    } = signed;
    let expected = oracle::check(key, message, signature);
    tally.compared(match (expected.good, expected.steps) {
        (true, _) => "good signatures",
        (false, 0) => "signatures of a wrong form",
        (false, _) => "bad signatures",
    });
    let refusal = u32::from(expected.refusal);
    let expected = (refusal, expected.good, expected.steps, expected.leaf);
    same("check", &check(signed), &expected).map_err(|text| {
        format!(
            "{text}\nkey: {}\nmessage: {}\nsignature: {}",
            hex(key),
            hex(message),
            hex(signature)
        )
    })?;
    Ok(expected.1)
}

/// The library's answer, and verdict, steps and leaf, which it must write whatever stood there.
fn check(signed: &Signed) -> (u32, bool, u32, u32) {
    let Signed {
        key,
        message,
        signature,
    } = signed;
    let (mut good, mut steps, mut leaf) = (true, u32::MAX, u32::MAX);
    // SAFETY: the three slices are readable, and verdict, steps and leaf are writable.
    let refusal = unsafe {
        finaruvom_check(
            key.as_ptr(),
            key.len(),
            message.as_ptr(),
            message.len(),
            signature.as_ptr(),
            signature.len(),
            &mut good,
            &mut steps,
            &mut leaf,
        )
    };
    (refusal, good, steps, leaf)
}
